; What the instruction pshufb of x86-64 does: each byte of the result is the one whose number, 0 to 15, is in the low bits of its place,
; or 0 where the place's highest bit is set.
define internal <16 x i8> @toarmuts.x86.ssse3.pshuf.b.128(<16 x i8> %bytes, <16 x i8> %places) {
start:
  br label %next
next:
  %lane = phi i32 [ 0, %start ], [ %after, %next ]
  %made = phi <16 x i8> [ zeroinitializer, %start ], [ %more, %next ]
  %place = extractelement <16 x i8> %places, i32 %lane
  %low = and i8 %place, 15
  %number = zext i8 %low to i32
  %byte = extractelement <16 x i8> %bytes, i32 %number
  %is_zero = icmp slt i8 %place, 0
  %value = select i1 %is_zero, i8 0, i8 %byte
  %more = insertelement <16 x i8> %made, i8 %value, i32 %lane
  %after = add i32 %lane, 1
  %is_last = icmp eq i32 %after, 16
  br i1 %is_last, label %done, label %next
done:
  ret <16 x i8> %more
}
