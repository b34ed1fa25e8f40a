; The proved code asks for memory as x86-64's C does: a size and an alignment of 64 bits, and a flag and an address returned in two
; registers of 64 bits. No calling convention of 32 bits has that. So these functions stand between it and two C functions, which take
; size_t and return NULL where there is no memory. A size of 2^31 bytes or more is no object's, and is refused here.
declare ptr @toarmuts_c_alloc(i32 noundef, i32 noundef)
declare ptr @toarmuts_c_realloc(ptr noundef, i32 noundef, i32 noundef)

; Where there is no memory, the address isn't used, but it must be one.
@toarmuts.nowhere = internal constant [16 x i8] zeroinitializer, align 8

define internal { i64, i64 } @rattle_alloc(i64 %size, i64 %align) {
start:
  %fits = icmp ult i64 %size, 2147483648
  br i1 %fits, label %ask, label %refuse
ask:
  %narrow_size = trunc i64 %size to i32
  %narrow_align = trunc i64 %align to i32
  %block = call ptr @toarmuts_c_alloc(i32 %narrow_size, i32 %narrow_align)
  %answer = call { i64, i64 } @toarmuts.answer(ptr %block)
  ret { i64, i64 } %answer
refuse:
  %refusal = call { i64, i64 } @toarmuts.answer(ptr null)
  ret { i64, i64 } %refusal
}

define internal { i64, i64 } @rattle_realloc(ptr %old, i64 %kept, i64 %size, i64 %align) {
start:
  %fits = icmp ult i64 %size, 2147483648
  br i1 %fits, label %ask, label %refuse
ask:
  %narrow_size = trunc i64 %size to i32
  %narrow_align = trunc i64 %align to i32
  %block = call ptr @toarmuts_c_realloc(ptr %old, i32 %narrow_size, i32 %narrow_align)
  %answer = call { i64, i64 } @toarmuts.answer(ptr %block)
  ret { i64, i64 } %answer
refuse:
  %refusal = call { i64, i64 } @toarmuts.answer(ptr null)
  ret { i64, i64 } %refusal
}

define internal { i64, i64 } @toarmuts.answer(ptr %block) {
start:
  %is_none = icmp eq ptr %block, null
  %flag = select i1 %is_none, i64 0, i64 1
  %place = select i1 %is_none, ptr @toarmuts.nowhere, ptr %block
  %address = ptrtoaddr ptr %place to i32
  %wide = zext i32 %address to i64
  %half = insertvalue { i64, i64 } poison, i64 %flag, 0
  %answer = insertvalue { i64, i64 } %half, i64 %wide, 1
  ret { i64, i64 } %answer
}
