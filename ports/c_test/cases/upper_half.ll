; Sums and products of numbers of 32 bits exceed 2^32, and their upper half is seen: by a shift, a comparison, and a division.
target datalayout = "e-m:e-p270:32:32-p271:32:32-p272:64:64-i64:64-i128:128-f80:128-n8:16:32:64-S128"
target triple = "x86_64-unknown-linux-gnu"

define internal i64 @sum(i64 %a0, i64 %a1) {
  %s = add i64 %a0, %a1
  ret i64 %s
}
define i64 @uip_x(ptr %p, i64 %n) {
  %x = load i32, ptr %p, align 4
  %q = getelementptr i8, ptr %p, i64 4
  %y = load i32, ptr %q, align 4
  %ox = or i32 %x, -16777216
  %oy = or i32 %y, -16777216
  %wx = zext i32 %ox to i64
  %wy = zext i32 %oy to i64
  %sum = call i64 @sum(i64 %wx, i64 %wy)
  %carry = lshr i64 %sum, 32
  %product = mul i64 %wx, %wy
  %high = lshr i64 %product, 40
  %twice = shl i64 %wx, 1
  %is = icmp ugt i64 %twice, 4294967295
  %bit = zext i1 %is to i64
  %third = udiv i64 %product, 3
  %rest = urem i64 %sum, 1000003
  %all = load i64, ptr %p, align 8
  %top = lshr i64 %all, 33
  %before = sub i64 %n, 4294967296
  %part = lshr i64 %before, 48
  %e1 = xor i64 %carry, %high
  %e2 = xor i64 %e1, %bit
  %e3 = xor i64 %e2, %third
  %e4 = xor i64 %e3, %rest
  %e5 = xor i64 %e4, %top
  %e6 = mul i64 %e5, 31
  %e7 = xor i64 %e6, %part
  ret i64 %e7
}
