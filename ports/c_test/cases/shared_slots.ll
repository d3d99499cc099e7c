; Slots that are never in use at once share memory, also in a loop; one that is in use beside another does not.
target datalayout = "e-m:e-p270:32:32-p271:32:32-p272:64:64-i64:64-i128:128-f80:128-n8:16:32:64-S128"
target triple = "x86_64-unknown-linux-gnu"

define i64 @uip_x(ptr %p, i64 %n) {
  %a = alloca [64 x i8], align 8
  %b = alloca [64 x i8], align 8
  %c = alloca [32 x i8], align 1
  %keep = alloca [64 x i8], align 8
  call void @llvm.lifetime.start.p0(ptr %keep)
  call void @llvm.memmove.p0.p0.i64(ptr %keep, ptr %p, i64 64, i1 false)
  br label %loop
loop:
  %i = phi i64 [ 0, %0 ], [ %next, %again ]
  %sum = phi i64 [ %n, %0 ], [ %more, %again ]
  call void @llvm.lifetime.start.p0(ptr %a)
  call void @llvm.memset.p0.i64(ptr %a, i8 1, i64 64, i1 false)
  %at = getelementptr i8, ptr %a, i64 %i
  store i64 %sum, ptr %at, align 1
  %one = load i64, ptr %a, align 8
  call void @llvm.lifetime.end.p0(ptr %a)
  %odd = trunc i64 %one to i1
  br i1 %odd, label %left, label %right
left:
  call void @llvm.lifetime.start.p0(ptr %b)
  call void @llvm.memset.p0.i64(ptr %b, i8 2, i64 64, i1 false)
  %two = load i64, ptr %b, align 8
  call void @llvm.lifetime.end.p0(ptr %b)
  br label %again
right:
  call void @llvm.lifetime.start.p0(ptr %c)
  call void @llvm.memset.p0.i64(ptr %c, i8 3, i64 32, i1 false)
  %three = load i64, ptr %c, align 1
  call void @llvm.lifetime.end.p0(ptr %c)
  br label %again
again:
  %four = phi i64 [ %two, %left ], [ %three, %right ]
  %k = getelementptr i8, ptr %keep, i64 %i
  %five = load i8, ptr %k, align 1
  %wide = zext i8 %five to i64
  %x = xor i64 %one, %four
  %y = mul i64 %x, 31
  %more = add i64 %y, %wide
  %next = add i64 %i, 1
  %over = icmp eq i64 %next, 40
  br i1 %over, label %end, label %loop
end:
  call void @llvm.lifetime.end.p0(ptr %keep)
  ret i64 %more
}
declare void @llvm.memset.p0.i64(ptr, i8, i64, i1)
declare void @llvm.memmove.p0.p0.i64(ptr, ptr, i64, i1)
declare void @llvm.lifetime.start.p0(ptr)
declare void @llvm.lifetime.end.p0(ptr)
