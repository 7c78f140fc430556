/* Counts ones, by an instruction or by a routine, as the compiler is told. */
int ones(unsigned number);

int ones(unsigned number)
{
    return __builtin_popcount(number);
}
