; A module of the toolchain's forms, small enough to plant faults in: an exported function makes a pair of the lent slice, a
; pointer and a length, where null stands for an address that no one uses, and a worker clears a pair, copies that one to it,
; steps to a byte and loads it; the host reads bytes to an array. It is indifferent to a pointer's width.
define internal noundef i8 @"slice::byte"(ptr noundef %a0, i64 noundef %a1) #0 {
start:
  %copy = alloca [16 x i8], align 8
  call void @llvm.memset.p0.i64(ptr %copy, i8 0, i64 16, i1 false)
  %place = alloca ptr, align 8
  call void @llvm.memmove.p0.p0.i64(ptr %copy, ptr %a0, i64 16, i1 false)
  %behind = getelementptr i8, ptr %copy, i64 8
  %length = load i64, ptr %behind, align 8, !noundef !1
  %within = icmp ult i64 %a1, %length
  br i1 %within, label %inside, label %past

inside:
  %first = load ptr, ptr %copy, align 8, !noundef !1
  %step = getelementptr inbounds nuw i8, ptr %first, i64 %a1
  store ptr %step, ptr %place, align 8
  %there = load ptr, ptr %place, align 8, !noundef !1
  %byte = load i8, ptr %there, align 1, !noundef !1
  ret i8 %byte

past:
  ret i8 0
}

define noundef i32 @slice(ptr noundef %a0, i64 noundef %a1) #0 {
start:
  %pair = alloca [16 x i8], align 8
  %none = icmp eq ptr %a0, null
  %one = zext i1 %none to i64
  %page = mul i64 %one, 4096
  %lent = getelementptr i8, ptr %a0, i64 %page
  store ptr %lent, ptr %pair, align 8
  %second = getelementptr i8, ptr %pair, i64 8
  store i64 %a1, ptr %second, align 8
  %room = alloca [16 x i8], align 1
  %got = call i64 @read(i32 0, ptr %room, i64 16)
  %third = call i8 @"slice::byte"(ptr %pair, i64 3)
  %wide = zext i8 %third to i32
  ret i32 %wide
}

declare noundef i64 @read(i32 noundef, ptr noundef, i64 noundef) #1
