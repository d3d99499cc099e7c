; The same through the arguments of calls: a function stores what it is given, and another one passes it on.
target datalayout = "e-m:e-p270:32:32-p271:32:32-p272:64:64-i64:64-i128:128-f80:128-n8:16:32:64-S128"
target triple = "x86_64-unknown-linux-gnu"

define internal void @keep(ptr %a0, ptr %a1) {
  store ptr %a1, ptr %a0, align 8
  ret void
}
define internal void @pass(ptr %a0, ptr %a1) {
  call void @keep(ptr %a0, ptr %a1)
  ret void
}
define internal ptr @choose(ptr %a0, i1 %a1, ptr %a2) {
  %one = load ptr, ptr %a0, align 8
  %out = select i1 %a1, ptr %one, ptr %a2
  ret ptr %out
}
define i64 @uip_x(ptr %p, i64 %n) {
  %o = getelementptr i8, ptr %p, i64 16
  %u = getelementptr i8, ptr %p, i64 24
  %data = load ptr, ptr %p, align 8
  call void @pass(ptr %o, ptr %data)
  call void @pass(ptr %u, ptr %p)
  %is = trunc i64 %n to i1
  %chosen = call ptr @choose(ptr %o, i1 true, ptr %p)
  call void @keep(ptr %u, ptr %chosen)
  %back = load i64, ptr %u, align 8
  ret i64 %back
}
