; Eight bytes of data are loaded and stored as an address, as clang moves an enum: all eight must arrive, with 32 bits too.
target datalayout = "e-m:e-p270:32:32-p271:32:32-p272:64:64-i64:64-i128:128-f80:128-n8:16:32:64-S128"
target triple = "x86_64-unknown-linux-gnu"

define i64 @uip_x(ptr %p, i64 %n) {
  %slot = alloca [16 x i8], align 8
  %q = getelementptr i8, ptr %slot, i64 8
  %o = getelementptr i8, ptr %p, i64 16
  %is = trunc i64 %n to i1
  br i1 %is, label %data, label %address
data:
  store i64 %n, ptr %q, align 8
  store i8 1, ptr %slot, align 1
  br label %end
address:
  store ptr %p, ptr %q, align 8
  store i8 0, ptr %slot, align 1
  br label %end
end:
  %moved = load ptr, ptr %q, align 8
  %copy = load ptr, ptr %p, align 8
  store ptr %copy, ptr %o, align 8
  %same = icmp eq ptr %copy, %moved
  %tag = load i8, ptr %slot, align 1
  switch i8 %tag, label %byte [
    i8 1, label %number
  ]
number:
  %whole = ptrtoint ptr %moved to i64
  %more = zext i1 %same to i64
  %sum = add i64 %whole, %more
  ret i64 %sum
byte:
  %first = load i8, ptr %moved, align 1
  %wide = zext i8 %first to i64
  ret i64 %wide
}
