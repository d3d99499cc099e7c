; A variable that is read before its next value, a carry of 128 bits, sums and differences at their bounds, an offset from an upper half, and
; a move of bytes that overlap.
target datalayout = "e-m:e-p270:32:32-p271:32:32-p272:64:64-i64:64-i128:128-f80:128-n8:16:32:64-S128"
target triple = "x86_64-unknown-linux-gnu"

define i64 @uip_x(ptr %p, i64 %n) {
  %v = alloca i64, align 8
  store i64 %n, ptr %v, align 8
  %old = load i64, ptr %v, align 8
  store i64 77, ptr %v, align 8
  %new = load i64, ptr %v, align 8
  %a = mul i64 %old, 3
  %all = load i64, ptr %p, align 8
  %big = or i64 %all, -4611686018427387904
  %one = zext i64 %big to i128
  %two = add i128 %one, %one
  %high = lshr i128 %two, 64
  %b = trunc i128 %high to i64
  %middle = shl i128 %two, 30
  %upper = lshr i128 %middle, 64
  %c = trunc i128 %upper to i64
  %x = load i8, ptr %p, align 1
  %q = getelementptr i8, ptr %p, i64 9
  %y = load i8, ptr %q, align 1
  %less = call i8 @llvm.usub.sat.i8(i8 %x, i8 %y)
  %more = call i8 @llvm.uadd.sat.i8(i8 %x, i8 %y)
  %d = zext i8 %less to i64
  %e = zext i8 %more to i64
  %r = getelementptr i8, ptr %p, i64 8
  %again = load i64, ptr %r, align 8
  %shifted = lshr i64 %again, 37
  %index = and i64 %shifted, 31
  %at = getelementptr i8, ptr %p, i64 %index
  %byte = load i8, ptr %at, align 1
  %f = zext i8 %byte to i64
  %to = getelementptr i8, ptr %p, i64 3
  call void @llvm.memmove.p0.p0.i64(ptr %to, ptr %p, i64 40, i1 false)
  %s1 = add i64 %a, %new
  %s2 = xor i64 %s1, %b
  %s3 = mul i64 %s2, 31
  %s4 = xor i64 %s3, %c
  %s5 = add i64 %s4, %d
  %s6 = mul i64 %s5, 31
  %s7 = add i64 %s6, %e
  %s8 = mul i64 %s7, 31
  %s9 = add i64 %s8, %f
  ret i64 %s9
}
declare i8 @llvm.usub.sat.i8(i8, i8)
declare i8 @llvm.uadd.sat.i8(i8, i8)
declare void @llvm.memmove.p0.p0.i64(ptr, ptr, i64, i1)
