/* The guest's only program: runs Linux's dmatest, prints how long it took, and ends the machine: switches it off if the
 * kernel's command line has off=1, else resets it. The command line says which tests run, and how many copies each
 * makes on a channel: first=COPIES random=COPIES long=COPIES. While a test runs, it prints a line every five seconds,
 * so that a silent console means that the machine hangs. Then it uses the SPI buses that the machine has. All its lines
 * go through the kernel's log: a line that goes straight to the console could come between the parts of one of the
 * kernel's. */
#include <errno.h>
#include <fcntl.h>
#include <linux/spi/spidev.h>
#include <stdint.h>
#include <stdio.h>
#include <stdlib.h>
#include <string.h>
#include <sys/ioctl.h>
#include <sys/mount.h>
#include <sys/reboot.h>
#include <time.h>
#include <unistd.h>

/* Opens a parameter of dmatest. */
static int open_parameter(const char *name, int flags)
{
    char path[100];
    int file;

    snprintf(path, sizeof path, "/sys/module/dmatest/parameters/%s", name);
    file = open(path, flags);
    if (file < 0)
        perror(path);
    return file;
}

static void set(const char *name, const char *value)
{
    int file = open_parameter(name, O_WRONLY);

    if (write(file, value, strlen(value)) < 0)
        perror(name);
    close(file);
}

/* Returns whether a test still runs. A read says that none does also if no thread of the test has begun, so ten reads
 * must agree. The first read after its end releases the channels. */
static int runs(void)
{
    for (int reads = 0; reads < 10; reads++) {
        char answer = 'N';
        int file = open_parameter("run", O_RDONLY);

        if (read(file, &answer, 1) < 0)
            perror("run");
        close(file);
        if (answer == 'Y')
            return 1;
        usleep(5000);
    }
    return 0;
}

static double seconds(void)
{
    struct timespec now;

    clock_gettime(CLOCK_MONOTONIC, &now);
    return now.tv_sec + now.tv_nsec * 1e-9;
}

/* Copies between two buffers of this size, whole or in random parts, on at most `channels` channels; 0 for all. */
static void test(const char *name, const char *bytes, int whole, const char *channels)
{
    const char *copies = getenv(name);
    double began = seconds(), told = began;

    if (!copies || atoi(copies) == 0)
        return;
    printf("init: %s begins\n", name);
    set("test_buf_size", bytes);
    set("norandom", whole ? "Y" : "N");
    set("max_channels", channels);
    set("iterations", copies);
    set("timeout", "30000");
    set("channel", "\n");
    set("run", "1");
    usleep(5000);
    while (runs()) {
        usleep(5000);
        if (seconds() >= told + 5) {
            told = seconds();
            printf("init: %s runs\n", name);
        }
    }
    printf("init: %s took %.2f s\n", name, seconds() - began);
}

/* Moves bytes over an SPI bus, and prints how many Linux says were moved. */
static void use_spi(const char *name)
{
    static uint8_t sent[1024], received[1024];
    struct spi_ioc_transfer it = {
        .tx_buf = (uintptr_t)sent, .rx_buf = (uintptr_t)received, .len = sizeof sent, .speed_hz = 1000000};
    char path[20];
    int file, moved;

    snprintf(path, sizeof path, "/dev/%s", name);
    file = open(path, O_RDWR);
    if (file < 0)
        return;
    moved = ioctl(file, SPI_IOC_MESSAGE(1), &it);
    if (moved < 0)
        printf("init: %s fails: %s\n", name, strerror(errno));
    else
        printf("init: %s moves %d bytes\n", name, moved);
    close(file);
}

int main(void)
{
    if (!freopen("/dev/kmsg", "w", stdout))
        return 1;
    setvbuf(stdout, NULL, _IOLBF, 0);
    mount("sysfs", "/sys", "sysfs", 0, NULL);
    printf("init: %ld processors\n", sysconf(_SC_NPROCESSORS_ONLN));
    test("first", "16384", 0, "1");
    test("random", "16384", 0, "0");
    test("long", "1048576", 1, "1");
    use_spi("spi0");
    use_spi("spi2");
    printf("init: ends\n");
    reboot(getenv("off") ? RB_POWER_OFF : RB_AUTOBOOT);
    return 1;
}
