# The tag of the exceptions of C++, which its library has.
	.tagtype	__cpp_exception i32
	.globl	__cpp_exception
__cpp_exception:
