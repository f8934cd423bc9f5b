
; Memory, as the module of the library asks for it, from the C library. Its sizes are numbers of the
; kind SIZE, in whose place the scripts put i64 or i32. Whoever asks for none gets a place that is
; not null. None of its calls is inlined, so that no allocation is left out or made another.
@nothing = internal global i8 0
declare ptr @malloc(SIZE)
declare ptr @realloc(ptr, SIZE)
declare void @free(ptr)

; So many bytes: at least one, and no more than a size can count.
define internal SIZE @bytes(i64 %asked) nounwind {
  %none = inttoptr i64 -1 to ptr
  %most = ptrtoint ptr %none to i64
  %isnone = icmp eq i64 %asked, 0
  %some = select i1 %isnone, i64 1, i64 %asked
  %ismuch = icmp ugt i64 %some, %most
  %few = select i1 %ismuch, i64 %most, i64 %some
  %at = inttoptr i64 %few to ptr
  %count = ptrtoint ptr %at to SIZE
  ret SIZE %count
}

define {i64, i64} @rattle_alloc(i64 %asked, i64 %align) nounwind noinline {
  %count = call SIZE @bytes(i64 %asked)
  %at = call ptr @malloc(SIZE %count)
  %told = call {i64, i64} @told(ptr %at)
  ret {i64, i64} %told
}

define {i64, i64} @rattle_realloc(ptr %old, i64 %kept, i64 %asked, i64 %align) noinline nounwind {
  %count = call SIZE @bytes(i64 %asked)
  %at = call ptr @realloc(ptr %old, SIZE %count)
  %told = call {i64, i64} @told(ptr %at)
  ret {i64, i64} %told
}

define void @rattle_dealloc(ptr %at) nounwind noinline {
  call void @free(ptr %at)
  ret void
}

; Whether there is memory, and where.
define internal {i64, i64} @told(ptr %at) nounwind {
  %is = icmp ne ptr %at, null
  %ok = zext i1 %is to i64
  %place = select i1 %is, ptr %at, ptr @nothing
  %number = ptrtoint ptr %place to i64
  %first = insertvalue {i64, i64} undef, i64 %ok, 0
  %both = insertvalue {i64, i64} %first, i64 %number, 1
  ret {i64, i64} %both
}
