#include "inspect.h"

int main(int argc, char **argv)
{
    return (int)inspect(argc, argv, stdout, stderr);
}
