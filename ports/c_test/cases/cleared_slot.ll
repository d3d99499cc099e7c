; A slot is cleared by memset, and then read whole; and one is filled with another byte.
target datalayout = "e-m:e-p270:32:32-p271:32:32-p272:64:64-i64:64-i128:128-f80:128-n8:16:32:64-S128"
target triple = "x86_64-unknown-linux-gnu"

define i64 @uip_x(ptr %p, i64 %n) {
  %s = alloca i64, align 8
  %t = alloca i32, align 4
  store i64 %n, ptr %s, align 8
  %is = trunc i64 %n to i1
  br i1 %is, label %clear, label %end
clear:
  call void @llvm.memset.p0.i64(ptr %s, i8 0, i64 8, i1 false)
  br label %end
end:
  call void @llvm.memset.p0.i64(ptr %t, i8 7, i64 4, i1 false)
  %one = load i64, ptr %s, align 8
  %two = load i32, ptr %t, align 4
  %wide = zext i32 %two to i64
  %sum = add i64 %one, %wide
  ret i64 %sum
}
declare void @llvm.memset.p0.i64(ptr, i8, i64, i1)
