// The middle of two indices, as a binary search needs it.
unsigned char nondet_index(void);

int main(void) {
    unsigned char low = nondet_index(), high = nondet_index();
    __CPROVER_assume(low <= high);
    unsigned char middle = low + ((high - low) >> 1);
    __CPROVER_assert(low <= middle && middle <= high, "the middle is between the two");
}
