// For a compiler that comes without the headers of its language, as the clang of the kit of rt does.
typedef __SIZE_TYPE__ size_t;
#define NULL ((void *)0)
