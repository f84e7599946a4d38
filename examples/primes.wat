;; Prime numbers: a sieve in memory, a test by powers, factors, and a table of operations on numbers.
;;
;; Numbers are i32 without sign. The byte at 1024 + n says of each n below the limit whether it is composite (1) or prime (0).
(module $primes
  (@custom "origin" (before first) "an example of " "the text format")
  (@producers (language "WebAssembly text" "3.0") (processed-by "wat" "1"))

  (type $operation (func (param $n i32) (result i32)))
  (type $visitor (func (param $prime i32)))

  (import "host" "visit" (func $visit (type $visitor)))

  (memory $bytes (export "memory") 2 2)
  (table $operations (export "operations") funcref
    (elem $is_prime $next_prime $largest_factor $count_below))
  (tag $too_small (export "too_small") (param i32))
  (global $limit (export "limit") (mut i32) (i32.const 0))
  (global $most (@name "greatest limit") i32 (i32.const 0x1_0000))

  ;; What `describe` answers: each text behind its length, at 0, 5 and 11.
  (data $words (i32.const 0) "\04unit" "\05prime" "\09composite")
  (data $greeting "primes \e2\89\a4 " (i8 0x32) (i16 0x3535))

  (start $begin)
  (func $begin
    (call $sieve (i32.const 1000)))

  ;; Marks the composite numbers below the limit given, which is at least 3; no more than 65536 are marked.
  (func $sieve (export "sieve") (param $to i32)
    (local $p i32) (local $multiple i32)
    (@metadata.code.branch_hint "\00")
    (if (i32.lt_u (local.get $to) (i32.const 3))
      (then (throw $too_small (local.get $to))))
    (local.set $to
      (select (local.get $to) (global.get $most) (i32.lt_u (local.get $to) (global.get $most))))
    (global.set $limit (local.get $to))
    (memory.fill (i32.const 1024) (i32.const 0) (global.get $most))
    i32.const 1024
    i32.const 0x0101 ;; neither 0 nor 1 is prime
    i32.store16
    i32.const 2
    local.set $p
    block $done
      loop $numbers
        local.get $p
        local.get $p
        i32.mul
        local.tee $multiple
        local.get $to
        i32.ge_u
        (@metadata.code.branch_hint "\00")
        br_if $done
        local.get $p
        i32.load8_u offset=1024
        i32.eqz
        if $prime
          loop $multiples
            (i32.store8 offset=1024 (local.get $multiple) (i32.const 1))
            (local.tee $multiple (i32.add (local.get $multiple) (local.get $p)))
            local.get $to
            i32.lt_u
            (@metadata.code.branch_hint "\01")
            br_if $multiples
          end
        end $prime
        (local.set $p (i32.add (local.get $p) (i32.const 1)))
        br $numbers
      end $numbers
    end $done)

  ;; The power of a base, modulo a number below 2^32.
  (func $power (export "power") (param $base i64) (param $exponent i64) (param $modulus i64) (result i64)
    (local $result i64)
    (local.set $result (i64.rem_u (i64.const 1) (local.get $modulus)))
    (loop $bits (result i64)
      (@metadata.code.branch_hint "\00")
      (if (result i64) (i64.eqz (local.get $exponent))
        (then (local.get $result))
        (else
          (if (i32.wrap_i64 (i64.and (local.get $exponent) (i64.const 1)))
            (then
              (local.set $result (i64.rem_u (i64.mul (local.get $result) (local.get $base)) (local.get $modulus)))))
          (local.set $base (i64.rem_u (i64.mul (local.get $base) (local.get $base)) (local.get $modulus)))
          (local.set $exponent (i64.shr_u (local.get $exponent) (i64.const 1)))
          (br $bits)))))

  ;; Whether an odd n above 2 passes for prime to a base: a strong probable prime, or a divisor of the base.
  (func $passes (param $n i64) (param $base i64) (result i32)
    (local $odd i64) (local $x i64) (local $twos i32)
    (if (i64.eqz (i64.rem_u (local.get $base) (local.get $n)))
      (@metadata.code.branch_hint "\00")
      (then (return (i32.const 1))))
    local.get $n
    i64.const 1
    i64.sub
    local.tee $odd
    i64.ctz
    i32.wrap_i64
    local.set $twos
    (local.set $odd (i64.shr_u (local.get $odd) (i64.extend_i32_u (local.get $twos))))
    (local.set $x (call $power (local.get $base) (local.get $odd) (local.get $n)))
    (if (i64.eq (local.get $x) (i64.const 1)) (then (return (i32.const 1))))
    (loop $squares
      (if (i64.eq (local.get $x) (i64.sub (local.get $n) (i64.const 1))) (then (return (i32.const 1))))
      (local.set $x (call $power (local.get $x) (i64.const 2) (local.get $n)))
      (br_if $squares (local.tee $twos (i32.sub (local.get $twos) (i32.const 1)))))
    i32.const 0)

  ;; Looked up below the limit; above it by powers of 2, 7 and 61, which is exact for 32 bits.
  (func $is_prime (export "is_prime") (type $operation) (param $n i32) (result i32)
    (local $wide i64)
    (if (i32.lt_u (local.get $n) (global.get $limit))
      (@metadata.code.branch_hint "\01")
      (then (return (i32.eqz (i32.load8_u offset=1024 (local.get $n))))))
    (local.set $wide (i64.extend_i32_u (local.get $n)))
    (if (result i32) (i32.and (local.get $n) (i32.const 1))
      (then
        (i32.and
          (i32.and
            (call $passes (local.get $wide) (i64.const 2))
            (call $passes (local.get $wide) (i64.const 7)))
          (call $passes (local.get $wide) (i64.const 61))))
      (else (i32.const 0))))

  ;; The first prime above n, or 0 where it has more than 32 bits.
  (func $next_prime (export "next_prime") (param i32) (result i32)
    (loop $search
      local.get 0
      i32.const 1
      i32.add
      local.tee 0
      call $is_prime
      (if (then (return (local.get 0))))
      (br_if $search (local.get 0)))
    i32.const 0)

  ;; The greatest prime factor of n, or n where it is below 2.
  (func $largest_factor (export "largest_factor") (type $operation)
    (local $factor i32) (local $wide i64)
    i32.const 2
    local.set $factor
    block $out
      loop $division
        local.get 0
        i64.extend_i32_u
        local.get $factor
        i64.extend_i32_u
        local.tee $wide
        local.get $wide
        i64.mul
        i64.lt_u
        br_if $out
        local.get 0
        local.get $factor
        i32.rem_u
        if
          local.get $factor
          i32.const 1
          i32.add
          local.set $factor
        else
          local.get 0
          local.get $factor
          i32.div_u
          local.set 0
        end
        br $division
      end
    end
    local.get 0)

  ;; How many primes are below n, which is at most the limit; sixteen numbers are counted at once.
  (func $count_below (export "count_below") (type $operation) (param $n i32) (result i32)
    (local $at i32) (local $count i32)
    (if (i32.gt_u (local.get $n) (global.get $limit)) (then unreachable))
    (block $rest
      (loop $blocks
        (br_if $rest (i32.gt_u (i32.add (local.get $at) (i32.const 16)) (local.get $n)))
        (local.set $count
          (i32.add
            (local.get $count)
            (i32.popcnt
              (i8x16.bitmask
                (i8x16.eq
                  (v128.load offset=1024 align=1 (local.get $at))
                  (v128.const i8x16 0 0 0 0 0 0 0 0 0 0 0 0 0 0 0 0))))))
        (local.set $at (i32.add (local.get $at) (i32.const 16)))
        (br $blocks)))
    (block $end
      (loop $one
        (br_if $end (i32.eq (local.get $at) (local.get $n)))
        (local.set $count
          (i32.add (local.get $count) (i32.eqz (i32.load8_u offset=1024 (local.get $at)))))
        (local.set $at (i32.add (local.get $at) (i32.const 1)))
        (br $one)))
    (local.get $count))

  ;; Shows the host each prime below n, in order.
  (func $visit_below (export "visit_below") (param $n i32)
    (local $p i32)
    (loop $search
      (local.set $p (call $next_prime (local.get $p)))
      (if (i32.lt_u (local.get $p) (local.get $n))
        (then
          (call $visit (local.get $p))
          (br $search)))))

  ;; The operation of a number in the table, applied to n.
  (func (@name "apply") (export "apply") (param $number i32) (param $n i32) (result i32)
    local.get $n
    local.get $number
    call_indirect $operations (type $operation))

  ;; Where the text that describes n stands; there is none for 0.
  (func $describe (export "describe") (param $n i32) (result i32)
    block $composite
      block $prime
        block $unit
          block $zero
            (select
              (local.get $n)
              (i32.sub (i32.const 3) (call $is_prime (local.get $n)))
              (i32.lt_u (local.get $n) (i32.const 2)))
            br_table $zero $unit $prime $composite
          end
          unreachable
        end
        i32.const 0
        return
      end $prime
      i32.const 5
      return
    end $composite
    i32.const 11)

  ;; Puts a greeting at 64, once, and answers its length.
  (func $greet (export "greet") (result i32)
    (memory.init $greeting (i32.const 64) (i32.const 0) (i32.const 14))
    data.drop $greeting
    i32.const 14)
)
