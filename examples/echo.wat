;; Writes back what it reads from descriptor 0, until it reads nothing.
;;
;; A request `hello` is read as `hello` and a newline, so line 1 is `hello`. The first request is
;; taken by step 6, its line is emitted by step 20, and each next request comes 22 steps after the
;; one before. `wat2wasm echo.wat` (wabt 1.0.32) gives exactly the bytes of echo.wasm.
(module
  (type (func))
  (type (func (param i32 i32 i32 i32) (result i32)))
  (import "wasi_snapshot_preview1" "fd_read" (func $fd_read (type 1)))
  (import "wasi_snapshot_preview1" "fd_write" (func $fd_write (type 1)))
  (memory 1)
  (export "_start" (func $start))
  (export "memory" (memory 0))
  (func $start (type 0)
    loop $again
      ;; Reads up to 4,096 bytes to 64. How many these were is put to 16.
      i32.const 0
      i32.const 0
      i32.const 1
      i32.const 16
      call $fd_read
      drop
      ;; None: it ends.
      i32.const 16
      i32.load
      i32.eqz
      br_if 1
      ;; Writes as many to descriptor 1, from 64 on.
      i32.const 12
      i32.const 16
      i32.load
      i32.store
      i32.const 1
      i32.const 8
      i32.const 1
      i32.const 20
      call $fd_write
      drop
      br $again
    end)
  ;; Two lists of one buffer each: 4,096 bytes from 64 on, and as many as are stored at 12.
  (data (i32.const 0) "\40\00\00\00\00\10\00\00\40\00\00\00"))
