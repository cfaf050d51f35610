#include <math.h>
#include <stdio.h>
#include <stdlib.h>

int main(void)
{
    double sum = 0;
    float product = 1;
    for (int i = 1; i <= 20; i++) {
        sum += sin(i * 0.3) * sqrt(i) + pow(1.1, i) - log(i);
        product *= 1 + 1.0f / (float)i;
    }
    long long wide = 1;
    for (int i = 1; i < 20; i++)
        wide = wide * 37 % 1000000007LL * i;
    printf("%.12g %.6g %lld %.3f\n", sum, (double)product, wide, strtod("-12.75e2", NULL) / 3);
    return (int)sum & 127;
}
