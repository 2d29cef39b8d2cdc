# Large pages for the program that a shell script starts after this. Compiling touches much memory for the first time, 160 MB
# for 1 MB of source, and with small pages a fifth of its time goes to that. Where the kernel gives large pages to those who ask,
# glibc's allocator is told to ask, and to take room by 32 MB; elsewhere these words say nothing. What the caller has set stays.
: "${GLIBC_TUNABLES=glibc.malloc.hugetlb=1:glibc.malloc.top_pad=33554432:glibc.malloc.mmap_threshold=33554432}"
export GLIBC_TUNABLES
