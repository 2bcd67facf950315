/* Firmware to be disassembled: what the code of a hearing aid has, in small. compare_walk.py builds it with sdcc. */
#include <8052.h>
#include <string.h>

#define BANDS 8

static const unsigned char gain_table[16] = {0, 1, 3, 6, 9, 12, 15, 18, 21, 24, 27, 29, 31, 33, 34, 35};
static __xdata int level[BANDS];
static __idata unsigned char volume = 5;
static __bit muted;
static volatile unsigned long ticks;
static char line[24];

void on_timer(void) __interrupt(1)
{
    ticks++;
    if ((ticks & 0xff) == 0)
        P1_0 = !P1_0;
}

void on_serial(void) __interrupt(4)
{
    if (RI) {
        RI = 0;
        switch (SBUF) {
        case '+':
            if (volume < 15)
                volume++;
            break;
        case '-':
            if (volume)
                volume--;
            break;
        case 'm':
            muted = !muted;
            break;
        case '0': case '1': case '2': case '3': case '4': case '5': case '6': case '7': case '8': case '9':
            volume = SBUF - '0';
            break;
        default:
            muted = 0;
        }
    }
}

static int compress(int sample, unsigned char band)
{
    long scaled = (long)sample * gain_table[volume & 15];
    int limit = level[band] * 3 / 2 + 64;
    if (scaled > limit)
        scaled = limit + (scaled - limit) / 4;
    else if (scaled < -limit)
        scaled = -limit - (-scaled - limit) / 4;
    level[band] += (int)(((scaled < 0 ? -scaled : scaled) - level[band]) >> 3);
    return muted ? 0 : (int)scaled;
}

static void digits(unsigned int n, char *to)
{
    unsigned char i = 5;
    to[5] = 0;
    do {
        to[--i] = '0' + n % 10;
        n /= 10;
    } while (i);
}

static float mean(void)
{
    float sum = 0;
    unsigned char i;
    for (i = 0; i != BANDS; i++)
        sum += level[i];
    return sum / BANDS;
}

static unsigned char checksum(const char *text)
{
    unsigned char sum = 0;
    while (*text)
        sum = (sum << 1 | sum >> 7) ^ *text++;
    return sum;
}

void main(void)
{
    unsigned char band = 0;
    TMOD = 0x21;
    IE = 0x92;
    TR0 = 1;
    for (;;) {
        P2 = (unsigned char)compress(P0 - 128, band);
        band = (band + 1) % BANDS;
        if (band == 0) {
            digits((unsigned int)mean(), line);
            strcpy(line + 8, line);
            P3 = checksum(line) ^ (unsigned char)strlen(line);
        }
    }
}
