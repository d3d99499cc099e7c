; Numbers that facts of other places bound there alone: by a difference that wraps, by a step down past 0, by a call, by an assumption. The upper
; half of each is seen elsewhere.
target datalayout = "e-m:e-p270:32:32-p271:32:32-p272:64:64-i64:64-i128:128-f80:128-n8:16:32:64-S128"
target triple = "x86_64-unknown-linux-gnu"

declare void @llvm.assume(i1)
declare i64 @llvm.umin.i64(i64, i64)
declare i64 @llvm.usub.sat.i64(i64, i64)
declare void @llvm.memmove.p0.p0.i64(ptr, ptr, i64, i1)

define internal { i8, i64 } @few(i64 %a0) #0 {
  %low = and i64 %a0, 255
  %one = insertvalue { i8, i64 } poison, i8 1, 0
  %two = insertvalue { i8, i64 } %one, i64 %low, 1
  ret { i8, i64 } %two
}
define internal { i8, i64 } @many(i64 %a0) #0 {
  %much = mul i64 %a0, 1048583
  %one = insertvalue { i8, i64 } poison, i8 2, 0
  %two = insertvalue { i8, i64 } %one, i64 %much, 1
  ret { i8, i64 } %two
}
define internal i64 @wide(i64 %a0) #0 {
  %much = mul i64 %a0, 1048589
  ret i64 %much
}
define internal i64 @read(ptr %a0, i64 %a1) #0 {
start:
  %is = icmp ult i64 %a1, 64
  br i1 %is, label %inside, label %outside
inside:
  %at = getelementptr inbounds nuw i8, ptr %a0, i64 %a1
  %byte = load i8, ptr %at, align 1
  %number = zext i8 %byte to i64
  ret i64 %number
outside:
  %high = lshr i64 %a1, 32
  ret i64 %high
}
define i64 @uip_x(ptr %p, i64 %n) {
start:
  %slot = alloca i64, align 8
  %wide = mul i64 %n, 1048583
  %less = sub i64 5, %wide
  %high = lshr i64 %wide, 32
  %e0 = xor i64 %less, %high
  %byte = load i8, ptr %p, align 1
  %x = zext i8 %byte to i64
  %is5 = icmp ne i64 %x, 5
  br i1 %is5, label %other, label %joined
other:
  %down = add i64 %x, -1
  %all = lshr i64 %down, 32
  br label %joined
joined:
  %top = phi i64 [ %all, %other ], [ 77, %start ]
  %e1 = add i64 %e0, %top
  %is0 = icmp ne i64 %x, 0
  br i1 %is0, label %a, label %b
a:
  %last = add i64 %x, -1
  %pf = call { i8, i64 } @few(i64 %last)
  br label %chosen
b:
  %pm = call { i8, i64 } @many(i64 %n)
  br label %chosen
chosen:
  %pair = phi { i8, i64 } [ %pf, %a ], [ %pm, %b ]
  %field = extractvalue { i8, i64 } %pair, 1
  %fh = lshr i64 %field, 30
  %e2 = xor i64 %e1, %fh
  %q = ptrtoint ptr %p to i64
  %far = add i64 %q, 4294967296
  %by = sub i64 %far, %q
  %bh = lshr i64 %by, 32
  %e3 = add i64 %e2, %bh
  %w1 = call i64 @wide(i64 %n)
  %w2 = call i64 @wide(i64 %x)
  %wh = lshr i64 %w1, 33
  %wl = trunc i64 %w2 to i16
  %wz = zext i16 %wl to i64
  %e4 = xor i64 %e3, %wh
  %e5 = add i64 %e4, %wz
  %in = call i64 @read(ptr %p, i64 %wide)
  %wide2 = lshr i64 %wide, 31
  %part = and i64 %x, 63
  %in2 = call i64 @read(ptr %p, i64 %part)
  %e6 = xor i64 %e5, %in
  %e7 = add i64 %e6, %wide2
  %e8 = xor i64 %e7, %in2
  %q4 = getelementptr i8, ptr %p, i64 4
  %load = load i32, ptr %q4, align 4
  %big = or i32 %load, -8
  %y = zext i32 %big to i64
  %long = and i64 %x, 15
  %sum = add nuw i64 %y, %long
  %len = sub i64 %sum, %y
  %to = getelementptr i8, ptr %p, i64 64
  call void @llvm.memmove.p0.p0.i64(ptr %to, ptr %q4, i64 %len, i1 false)
  %sh = lshr i64 %sum, 32
  %e9 = add i64 %e8, %sh
  %more = add i64 %y, 16777215
  %least = call i64 @llvm.umin.i64(i64 %more, i64 %wide)
  %rest = call i64 @llvm.usub.sat.i64(i64 %wide, i64 %more)
  %lh = lshr i64 %least, 31
  %e10 = xor i64 %e9, %lh
  %e11 = add i64 %e10, %rest
  %isu = icmp ult i64 %more, %wide
  %one = zext i1 %isu to i64
  %e12 = xor i64 %e11, %one
  %small = icmp ule i64 %x, 255
  call void @llvm.assume(i1 %small)
  %seen = zext i1 %small to i64
  %e13 = add i64 %e12, %seen
  store i64 %q, ptr %slot, align 8
  %address = load i64, ptr %slot, align 8, !uip_address !0
  %next = add i64 %address, %long
  %place = inttoptr i64 %next to ptr
  %it = load i8, ptr %place, align 1
  %itz = zext i8 %it to i64
  %e14 = xor i64 %e13, %itz
  ret i64 %e14
}
attributes #0 = { noinline nounwind }
!0 = !{}
