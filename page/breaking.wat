;; A module in place of the library's, for tests: a call with an input that begins with a space breaks off, and another one writes how often the instance
;; was called. page/breaking.mjs is this, by `wasm-as page/breaking.wat -o - | base64 -w0`.
(module
  (memory (export "memory") 1)
  (global $place (mut i64) (i64.const 1024))
  (global $calls (mut i32) (i32.const 0))
  (func (export "malloc") (param $length i64) (result i64)
    (global.set $place (i64.add (i64.const 1024) (i64.rem_u (i64.add (global.get $place) (i64.const 4096)) (i64.const 32768))))
    (global.get $place))
  (func (export "free") (param i64))
  (func (export "gen2run_over_memory")
    (param $words i64) (param $words_length i64) (param $input i64) (param $input_length i64) (param $output i64) (param $room i64) (param $written i64) (result i32)
    (if (i32.and (i64.ne (local.get $input_length) (i64.const 0)) (i32.eq (i32.load8_u (i32.wrap_i64 (local.get $input))) (i32.const 32))) (then (unreachable)))
    (global.set $calls (i32.add (global.get $calls) (i32.const 1)))
    (i32.store8 (i32.wrap_i64 (local.get $output)) (i32.add (global.get $calls) (i32.const 48)))
    (i32.store8 offset=1 (i32.wrap_i64 (local.get $output)) (i32.const 10))
    (i64.store (i32.wrap_i64 (local.get $written)) (i64.const 2))
    (i32.const 0)))
