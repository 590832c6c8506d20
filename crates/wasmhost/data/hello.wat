;; Writes the line `hi` to descriptor 1 and exits with code 7.
;;
;; Created on a disk, its run prints `1 o hi`, and `exited 7` on the error output. It takes 8 steps.
;; `wat2wasm hello.wat` (wabt 1.0.32) gives exactly the bytes of hello.wasm.
(module
  (type $start (func))
  (type $fd_write (func (param i32 i32 i32 i32) (result i32)))
  (type $proc_exit (func (param i32)))

  (import "wasi_snapshot_preview1" "fd_write" (func $fd_write (type $fd_write)))
  (import "wasi_snapshot_preview1" "proc_exit" (func $proc_exit (type $proc_exit)))

  (memory 1)

  (export "_start" (func $start))
  (export "memory" (memory 0))

  (func $start (type $start)
    i32.const 1    ;; the descriptor: standard output
    i32.const 0    ;; where the list of buffers lies
    i32.const 1    ;; how many buffers it has
    i32.const 16   ;; where the count of written bytes is put: 3
    call $fd_write
    drop           ;; the error number, 0
    i32.const 7    ;; the exit code
    call $proc_exit)

  ;; At 0 the list, one buffer: it lies at 8 and has 3 bytes. At 8 the buffer.
  (data (i32.const 0) "\08\00\00\00\03\00\00\00hi\0a"))
