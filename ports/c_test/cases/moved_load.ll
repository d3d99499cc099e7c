; A value that is loaded once and used once, after a store, a call, a move and a clearing of the same bytes.
target datalayout = "e-m:e-p270:32:32-p271:32:32-p272:64:64-i64:64-i128:128-f80:128-n8:16:32:64-S128"
target triple = "x86_64-unknown-linux-gnu"

define internal void @change(ptr %a0, i64 %a1) {
  %old = load i64, ptr %a0, align 8
  %new = add i64 %old, %a1
  store i64 %new, ptr %a0, align 8
  ret void
}
define i64 @uip_x(ptr %p, i64 %n) {
  %q = getelementptr i8, ptr %p, i64 8
  %one = load i64, ptr %p, align 8
  store i64 %n, ptr %p, align 8
  %a = mul i64 %one, 3
  %two = load i64, ptr %p, align 8
  call void @change(ptr %p, i64 5)
  %b = mul i64 %two, 5
  %three = load i64, ptr %p, align 8
  call void @llvm.memmove.p0.p0.i64(ptr %p, ptr %q, i64 16, i1 false)
  %c = mul i64 %three, 7
  %four = load i64, ptr %p, align 8
  call void @llvm.memset.p0.i64(ptr %p, i8 9, i64 8, i1 false)
  %d = mul i64 %four, 11
  %e = add i64 %a, %b
  %f = add i64 %c, %d
  %g = xor i64 %e, %f
  ret i64 %g
}
declare void @llvm.memset.p0.i64(ptr, i8, i64, i1)
declare void @llvm.memmove.p0.p0.i64(ptr, ptr, i64, i1)
