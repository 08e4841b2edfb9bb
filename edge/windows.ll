; The two functions of the heap, whose results lie in two registers, as the program takes them; C would hand them back
; in memory. What they do stands in windows.c.

declare ptr @jps_malloc(i64)
declare ptr @jps_realloc(ptr, i64)

@nothing = private global i8 0

define private { i64, ptr } @told(ptr %at) alwaysinline {
  %there = icmp ne ptr %at, null
  %bit = zext i1 %there to i64
  %place = select i1 %there, ptr %at, ptr @nothing
  %first = insertvalue { i64, ptr } poison, i64 %bit, 0
  %both = insertvalue { i64, ptr } %first, ptr %place, 1
  ret { i64, ptr } %both
}

define { i64, ptr } @rattle_alloc(i64 %size, i64 %least) {
  %none = icmp eq i64 %size, 0
  %want = select i1 %none, i64 %least, i64 %size
  %at = call ptr @jps_malloc(i64 %want)
  %told = call { i64, ptr } @told(ptr %at)
  ret { i64, ptr } %told
}

define { i64, ptr } @rattle_realloc(ptr %old, i64 %had, i64 %size, i64 %least) {
  %none = icmp eq i64 %size, 0
  %want = select i1 %none, i64 %least, i64 %size
  %at = call ptr @jps_realloc(ptr %old, i64 %want)
  %told = call { i64, ptr } @told(ptr %at)
  ret { i64, ptr } %told
}
