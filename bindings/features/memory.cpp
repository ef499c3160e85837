// Memory of the features: of the heap that their thread uses (heap.c). These are seen in the library alone, whose symbols but gwb_* are made local.
#include <cstdlib>
#include <new>
#include <utility>

extern "C" {
#include "heap.h"
}

void *operator new(std::size_t size, const std::nothrow_t &) noexcept
{
    const tried block = rattle_alloc(size, 16);
    return block.ok ? block.at : nullptr;
}
void *operator new(std::size_t size)
{
    if (void *at = operator new(size, std::nothrow_t()))
        return at;
    throw std::bad_alloc();
}
void operator delete(void *at) noexcept
{
    if (at != nullptr)
        rattle_dealloc(at);
}
void operator delete(void *at, std::size_t) noexcept { operator delete(at); }
void operator delete(void *at, const std::nothrow_t &) noexcept { operator delete(at); }

// What of the C++ library would bring much more of it along. A container asks for too much where memory would be refused too.
namespace std {
[[noreturn]] void __throw_length_error(const char *) { throw bad_alloc(); }
[[noreturn]] void __throw_out_of_range(const char *) { throw bad_alloc(); }
[[noreturn]] void __throw_out_of_range_fmt(const char *, ...) { throw bad_alloc(); }
[[noreturn]] void __throw_logic_error(const char *) { throw bad_alloc(); }
[[noreturn]] void __throw_bad_alloc() { throw bad_alloc(); }
[[noreturn]] void __throw_bad_function_call() { std::abort(); }
[[noreturn]] void __throw_bad_array_new_length() { throw bad_alloc(); }
} // namespace std
namespace __gnu_cxx {
void __verbose_terminate_handler() { std::abort(); }
} // namespace __gnu_cxx
extern "C" [[noreturn]] void __cxa_pure_virtual() { std::abort(); }

// What is thrown is small and needs no memory, so the pool that the C++ library keeps for it isn't brought along. It has its place before it is made: what is
// thrown while that goes on, as where memory is refused, has the other one. (More would not fit what threads have for libraries that come later.)
extern "C" {
static thread_local struct {
    alignas(long double) char bytes[2][256];
    bool is_taken[2];
} thrown;
static constexpr std::size_t before_thrown = 144; // what the C++ library puts there, and more
void *__cxa_allocate_exception(std::size_t size) noexcept
{
    for (std::size_t at : {0, 1})
        if (size <= sizeof thrown.bytes[at] - before_thrown && !std::exchange(thrown.is_taken[at], true)) {
            for (char &byte : thrown.bytes[at])
                byte = 0;
            return thrown.bytes[at] + before_thrown;
        }
    std::abort();
}
void __cxa_free_exception(void *freed) noexcept
{
    for (std::size_t at : {0, 1})
        if (thrown.bytes[at] + before_thrown == freed)
            thrown.is_taken[at] = false;
}
}
