/* The product of two numbers of 128 bits, modulo 2^128, for tools/wasm: where a product of two numbers of 64 bits is
 * looked at for overflow, LLVM's back end for WebAssembly calls this function, which elsewhere comes with a compiler's own
 * library. It is not proved. The length of groups in groups is such a product, and tests/page runs texts with them. */
typedef unsigned long long word;
typedef unsigned __int128 wide;

wide __multi3(wide a, wide b)
{
    const word low = 0xffffffffu;
    const word a0 = (word)a & low, a1 = (word)a >> 32, b0 = (word)b & low, b1 = (word)b >> 32;
    const word first = a0 * b0;
    const word second = a1 * b0 + (first >> 32);
    const word third = a0 * b1 + (second & low);
    const word high = a1 * b1 + (second >> 32) + (third >> 32) + (word)a * (word)(b >> 64) + (word)(a >> 64) * (word)b;
    return (wide)high << 64 | third << 32 | (first & low);
}
