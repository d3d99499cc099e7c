; Loops that count up to another number, which a processor of 32 bits may count in 32, and one that wraps at 2^64 and so needs all 64.
target datalayout = "e-m:e-p270:32:32-p271:32:32-p272:64:64-i64:64-i128:128-f80:128-n8:16:32:64-S128"
target triple = "x86_64-unknown-linux-gnu"

define i64 @uip_x(ptr %p, i64 %n) {
start:
  %few = load i8, ptr %p, align 1
  %count = zext i8 %few to i64
  %end = add nuw nsw i64 %count, 1
  br label %up
up:
  %at = phi i64 [ 0, %start ], [ %next, %up ]
  %sum = phi i64 [ 0, %start ], [ %more, %up ]
  %part = and i64 %at, 63
  %from = getelementptr i8, ptr %p, i64 %part
  %byte = load i8, ptr %from, align 1
  %wide = zext i8 %byte to i64
  %times = mul i64 %sum, 31
  %more = add i64 %times, %wide
  %next = add nuw nsw i64 %at, 1
  %is_end = icmp eq i64 %next, %end
  br i1 %is_end, label %round, label %up
round:
  %angle = phi i64 [ 1, %up ], [ %turned, %round ]
  %turns = phi i64 [ 0, %up ], [ %one, %round ]
  %one = add i64 %turns, %angle
  %turned = add i64 %angle, 4611686018427387904
  %is_back = icmp eq i64 %turned, 1
  br i1 %is_back, label %done, label %round
done:
  %high = lshr i64 %one, 60
  %low = xor i64 %more, %high
  %all = xor i64 %low, %one
  ret i64 %all
}
