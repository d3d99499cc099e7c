; A pair of which two others are made, each with a second field of its own.
target datalayout = "e-m:e-p270:32:32-p271:32:32-p272:64:64-i64:64-i128:128-f80:128-n8:16:32:64-S128"
target triple = "x86_64-unknown-linux-gnu"

define internal { i64, i8 } @pair(i64 %a0, i8 %a1) {
  %first = insertvalue { i64, i8 } poison, i64 %a0, 0
  %both = insertvalue { i64, i8 } %first, i8 %a1, 1
  ret { i64, i8 } %both
}
define i64 @uip_x(ptr %p, i64 %n) {
  %x = load i8, ptr %p, align 1
  %y = xor i8 %x, 85
  %made = call { i64, i8 } @pair(i64 %n, i8 %x)
  %one = insertvalue { i64, i8 } %made, i8 %y, 1
  %other = insertvalue { i64, i8 } %made, i64 77, 0
  %base = insertvalue { i64, i8 } poison, i64 %n, 0
  %left = insertvalue { i64, i8 } %base, i8 %x, 1
  %right = insertvalue { i64, i8 } %base, i8 %y, 1
  %a = extractvalue { i64, i8 } %one, 0
  %b = extractvalue { i64, i8 } %one, 1
  %c = extractvalue { i64, i8 } %other, 0
  %d = extractvalue { i64, i8 } %other, 1
  %e = extractvalue { i64, i8 } %left, 1
  %f = extractvalue { i64, i8 } %right, 1
  %wb = zext i8 %b to i64
  %wd = zext i8 %d to i64
  %we = zext i8 %e to i64
  %wf = zext i8 %f to i64
  %s1 = mul i64 %a, 31
  %s2 = add i64 %s1, %wb
  %s3 = mul i64 %s2, 31
  %s4 = add i64 %s3, %c
  %s5 = mul i64 %s4, 31
  %s6 = add i64 %s5, %wd
  %s7 = mul i64 %s6, 31
  %s8 = add i64 %s7, %we
  %s9 = mul i64 %s8, 31
  %s10 = add i64 %s9, %wf
  ret i64 %s10
}
