; Memory for the proved code, over malloc, realloc and free: the same text for each target. It is IR since the pair that
; rattle_alloc and rattle_realloc return would have another form in C on Windows.
;
; The first half of the pair is 1 if there is a block and else 0, and the second half is where the block is. Where there
; is none, the second half is the address of `nothing`, since it must not be null. A size of 0 asks for as many bytes
; as the block is to be aligned to, since malloc(0) may answer null.

@nothing = internal global i8 0, align 16

declare ptr @malloc(i64)
declare ptr @realloc(ptr, i64)
declare void @free(ptr)

define { i64, i64 } @rattle_alloc(i64 %size, i64 %align) nounwind uwtable {
  %asked = call i64 @asked(i64 %size, i64 %align)
  %block = call ptr @malloc(i64 %asked)
  %answer = call { i64, i64 } @answer(ptr %block)
  ret { i64, i64 } %answer
}

; Where it fails, the block stays as it is.
define { i64, i64 } @rattle_realloc(ptr %block, i64 %kept, i64 %size, i64 %align) nounwind uwtable {
  %asked = call i64 @asked(i64 %size, i64 %align)
  %moved = call ptr @realloc(ptr %block, i64 %asked)
  %answer = call { i64, i64 } @answer(ptr %moved)
  ret { i64, i64 } %answer
}

define void @rattle_dealloc(ptr %block) nounwind uwtable {
  call void @free(ptr %block)
  ret void
}

define internal i64 @asked(i64 %size, i64 %align) alwaysinline nounwind {
  %is_empty = icmp eq i64 %size, 0
  %asked = select i1 %is_empty, i64 %align, i64 %size
  ret i64 %asked
}

define internal { i64, i64 } @answer(ptr %block) alwaysinline nounwind {
  %is_there = icmp ne ptr %block, null
  %ok = zext i1 %is_there to i64
  %place = select i1 %is_there, ptr %block, ptr @nothing
  %address = ptrtoint ptr %place to i64
  %half = insertvalue { i64, i64 } poison, i64 %ok, 0
  %whole = insertvalue { i64, i64 } %half, i64 %address, 1
  ret { i64, i64 } %whole
}
