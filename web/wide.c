/* A product of 128 bits, which WebAssembly lacks: the checks of a library that isn't proved multiply so (make page-quick). Where
 * nothing calls it, the linker leaves it out. */
typedef unsigned long long word;

void __multi3(word *out, word a, word a_high, word b, word b_high)
{
    word low = (a & 0xFFFFFFFF) * (b & 0xFFFFFFFF), left = (a >> 32) * (b & 0xFFFFFFFF), right = (a & 0xFFFFFFFF) * (b >> 32);
    word middle = (low >> 32) + (left & 0xFFFFFFFF) + (right & 0xFFFFFFFF);
    out[0] = (low & 0xFFFFFFFF) | middle << 32;
    out[1] = (a >> 32) * (b >> 32) + (left >> 32) + (right >> 32) + (middle >> 32) + a * b_high + a_high * b;
}
