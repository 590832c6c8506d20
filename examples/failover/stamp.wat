;; Writes back what it reads from descriptor 0, after eight random letters and a space, until it
;; reads nothing. So a request that was answered twice from different random bytes would have two
;; texts. `wat2wasm stamp.wat` (wabt 1.0.32) gives exactly the bytes of stamp.wasm.
(module
  (type (func))
  (type (func (param i32 i32 i32 i32) (result i32)))
  (type (func (param i32 i32) (result i32)))
  (import "wasi_snapshot_preview1" "fd_read" (func $fd_read (type 1)))
  (import "wasi_snapshot_preview1" "fd_write" (func $fd_write (type 1)))
  (import "wasi_snapshot_preview1" "random_get" (func $random_get (type 2)))
  (memory 1)
  (export "_start" (func $start))
  (export "memory" (memory 0))
  (func $start (type 0) (local $at i32)
    loop $again
      ;; Reads up to 4,096 bytes to 73. How many these were is put to 16.
      i32.const 0
      i32.const 0
      i32.const 1
      i32.const 16
      call $fd_read
      drop
      ;; None: it ends.
      i32.const 16
      i32.load
      i32.eqz
      br_if 1
      ;; Eight random bytes to 64. Each becomes one of the letters from `a` to `p`.
      i32.const 64
      i32.const 8
      call $random_get
      drop
      i32.const 64
      local.set $at
      loop $next
        local.get $at
        local.get $at
        i32.load8_u
        i32.const 15
        i32.and
        i32.const 97
        i32.add
        i32.store8
        local.get $at
        i32.const 1
        i32.add
        local.tee $at
        i32.const 72
        i32.lt_u
        br_if $next
      end
      ;; Writes the letters, the space and what was read, from 64 on, to descriptor 1.
      i32.const 12
      i32.const 16
      i32.load
      i32.const 9
      i32.add
      i32.store
      i32.const 1
      i32.const 8
      i32.const 1
      i32.const 20
      call $fd_write
      drop
      br $again
    end)
  ;; Two lists of one buffer each: 4,096 bytes from 73 on, and as many as are stored at 12 from 64 on.
  (data (i32.const 0) "\49\00\00\00\00\10\00\00\40\00\00\00")
  (data (i32.const 72) " "))
