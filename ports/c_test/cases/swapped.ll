; The variables of a block change places on its branch, and one takes the value that another had.
target datalayout = "e-m:e-p270:32:32-p271:32:32-p272:64:64-i64:64-i128:128-f80:128-n8:16:32:64-S128"
target triple = "x86_64-unknown-linux-gnu"

define i64 @uip_x(ptr %p, i64 %n) {
  %x = load i64, ptr %p, align 8
  br label %loop
loop:
  %i = phi i64 [ 0, %0 ], [ %next, %loop ]
  %a = phi i64 [ %n, %0 ], [ %b, %loop ]
  %b = phi i64 [ %x, %0 ], [ %a, %loop ]
  %c = phi i64 [ 7, %0 ], [ %d, %loop ]
  %d = phi i64 [ 9, %0 ], [ %more, %loop ]
  %product = mul i64 %c, 31
  %more = add i64 %product, %a
  %next = add i64 %i, 1
  %over = icmp eq i64 %next, 5
  br i1 %over, label %end, label %loop
end:
  %one = mul i64 %a, 3
  %two = mul i64 %c, 5
  %three = mul i64 %d, 11
  %four = add i64 %one, %two
  %five = add i64 %four, %three
  ret i64 %five
}
