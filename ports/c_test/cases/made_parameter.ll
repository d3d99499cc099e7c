; refused: a parameter that clang has made
target datalayout = "e-m:e-p270:32:32-p271:32:32-p272:64:64-i64:64-i128:128-f80:128-n8:16:32:64-S128"
target triple = "x86_64-unknown-linux-gnu"

define internal i64 @f(ptr %a0.0.val) {
  %n = ptrtoint ptr %a0.0.val to i64
  ret i64 %n
}
define i64 @uip_x(ptr %p, i64 %n) {
  %data = load ptr, ptr %p, align 8
  %out = call i64 @f(ptr %data)
  ret i64 %out
}
