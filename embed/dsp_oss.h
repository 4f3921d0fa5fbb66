/*
 * The requests of the Open Sound System on an engine, as a program makes them: with the numbers, the arguments and the structs of
 * <sys/soundcard.h>. It is for programs that play /dev/dsp to another: an emulator of a kernel, or a library that is loaded into it. It
 * makes the calls of dsp_engine.h that a request stands for, and adds no rule of sound. Compile dsp_oss.c with your program.
 */
#ifndef DSP_OSS_H
#define DSP_OSS_H

#include "dsp_engine.h"

#ifdef __cplusplus
extern "C" {
#endif

/* ---- flags ---- */

/*
 * Move what the engine refuses to what is near, as kernels do. A rate goes to the nearer limit, a number of channels to the next below it, and
 * to 1 where there is none. A format that there isn't leaves the one that is set. Of SNDCTL_DSP_STEREO all but 0 is 1, of a volume each side
 * is at most 100, and of a trigger the two low bits count. Without this flag they are refused.
 */
#define DSP_OSS_NEAR 1u

/* The numbers of requests are FreeBSD's. Without this flag they are those of Linux on x86, whatever the system is. */
#define DSP_OSS_FREEBSD 2u

/* ---- the call ---- */

/*
 * Asks something of the channel of a descriptor. Answers 0, or minus the system's errno, and then neither the channel nor the argument has
 * changed. The argument points to an int or to a struct, as the request says, or to nothing.
 *
 *   -EBADF   the descriptor isn't open
 *   -EINVAL  there is no such request, as kernels have it; the rules refuse it; or there is no engine, or no such flag
 *   -EBUSY   the state of the channel doesn't allow it
 *   -EFAULT  the engine or the argument is null and may not be
 *
 * All requests of enum dsp_request are there, and groups. Besides:
 *
 *   SNDCTL_DSP_STEREO                         two channels with 1, and one with 0
 *   SOUND_PCM_READ_RATE, _CHANNELS, _BITS     what is set; of the format how many bits a sample has
 *   SNDCTL_DSP_NONBLOCK, _SETDUPLEX           nothing, and 0: nothing ever waits, and a descriptor has one way
 *   OSS_GETVERSION                            DSP_OSS_VERSION
 *   SNDCTL_DSP_SYNCGROUP                      the mode of its struct is PCM_ENABLE_OUTPUT, 2, of a channel that plays, and PCM_ENABLE_INPUT,
 *                                             1, of one that records
 *
 * Codes of formats are those of enum dsp_format, which are FreeBSD's; 8 and 16 bits have the same on Linux. Numbers of 64 bits are given by
 * their low 32. All bytes of a struct for which the engine has no answer are 0.
 *
 * A request is one call of the engine or two.
 */
int dsp_oss_ioctl(struct dsp_engine *engine, uint32_t fd, unsigned long request, void *argument, unsigned flags);

/* The version that OSS_GETVERSION answers: 4.0, the first that has volumes, errors and groups. */
#define DSP_OSS_VERSION 0x040000

/* ---- structs, for programs without <sys/soundcard.h> or with one that lacks them ---- */

/* audio_buf_info, of SNDCTL_DSP_GETOSPACE and SNDCTL_DSP_GETISPACE. */
struct dsp_oss_space {
    int fragments;
    int fragstotal;
    int fragsize;
    int bytes;
};

/* count_info, of SNDCTL_DSP_GETOPTR and SNDCTL_DSP_GETIPTR. */
struct dsp_oss_position {
    int bytes;
    int blocks;
    int ptr;
};

/* audio_errinfo, of SNDCTL_DSP_GETERROR, in the form whose errorparm fields are int. */
struct dsp_oss_errors {
    int play_underruns;
    int rec_overruns;
    unsigned play_ptradjust;
    unsigned rec_ptradjust;
    int play_errorcount;
    int rec_errorcount;
    int play_lasterror;
    int rec_lasterror;
    int play_errorparm;
    int rec_errorparm;
    int filler[16];
};

/* oss_syncgroup, of SNDCTL_DSP_SYNCGROUP. */
struct dsp_oss_group {
    int id;
    int mode;
    int filler[16];
};

/* ---- the numbers of requests on Linux ---- */

#define DSP_OSS_LINUX_RESET 0x00005000u
#define DSP_OSS_LINUX_SYNC 0x00005001u
#define DSP_OSS_LINUX_SPEED 0xc0045002u
#define DSP_OSS_LINUX_STEREO 0xc0045003u
#define DSP_OSS_LINUX_GETBLKSIZE 0xc0045004u
#define DSP_OSS_LINUX_SETFMT 0xc0045005u
#define DSP_OSS_LINUX_CHANNELS 0xc0045006u
#define DSP_OSS_LINUX_POST 0x00005008u
#define DSP_OSS_LINUX_SETFRAGMENT 0xc004500au
#define DSP_OSS_LINUX_GETFMTS 0x8004500bu
#define DSP_OSS_LINUX_GETOSPACE 0x8010500cu
#define DSP_OSS_LINUX_GETISPACE 0x8010500du
#define DSP_OSS_LINUX_NONBLOCK 0x0000500eu
#define DSP_OSS_LINUX_GETCAPS 0x8004500fu
#define DSP_OSS_LINUX_GETTRIGGER 0x80045010u
#define DSP_OSS_LINUX_SETTRIGGER 0x40045010u
#define DSP_OSS_LINUX_GETIPTR 0x800c5011u
#define DSP_OSS_LINUX_GETOPTR 0x800c5012u
#define DSP_OSS_LINUX_SETDUPLEX 0x00005016u
#define DSP_OSS_LINUX_GETODELAY 0x80045017u
#define DSP_OSS_LINUX_GETPLAYVOL 0x80045018u
#define DSP_OSS_LINUX_SETPLAYVOL 0xc0045018u
#define DSP_OSS_LINUX_GETERROR 0x80685019u
#define DSP_OSS_LINUX_GETERROR_LONG 0x80705019u /* of the form whose errorparm fields are long of 64 bits */
#define DSP_OSS_LINUX_SYNCGROUP 0xc048501cu
#define DSP_OSS_LINUX_SYNCSTART 0x4004501du
#define DSP_OSS_LINUX_READ_RATE 0x80045002u
#define DSP_OSS_LINUX_READ_BITS 0x80045005u
#define DSP_OSS_LINUX_READ_CHANNELS 0x80045006u
#define DSP_OSS_LINUX_GETVERSION 0x80044d76u

/* ---- and on FreeBSD ---- */

#define DSP_OSS_FREEBSD_RESET 0x20005000u
#define DSP_OSS_FREEBSD_SYNC 0x20005001u
#define DSP_OSS_FREEBSD_SPEED 0xc0045002u
#define DSP_OSS_FREEBSD_STEREO 0xc0045003u
#define DSP_OSS_FREEBSD_GETBLKSIZE 0x40045004u
#define DSP_OSS_FREEBSD_SETFMT 0xc0045005u
#define DSP_OSS_FREEBSD_CHANNELS 0xc0045006u
#define DSP_OSS_FREEBSD_POST 0x20005008u
#define DSP_OSS_FREEBSD_SETFRAGMENT 0xc004500au
#define DSP_OSS_FREEBSD_GETFMTS 0x4004500bu
#define DSP_OSS_FREEBSD_GETOSPACE 0x4010500cu
#define DSP_OSS_FREEBSD_GETISPACE 0x4010500du
#define DSP_OSS_FREEBSD_NONBLOCK 0x2000500eu
#define DSP_OSS_FREEBSD_GETCAPS 0x4004500fu
#define DSP_OSS_FREEBSD_GETTRIGGER 0x40045010u
#define DSP_OSS_FREEBSD_SETTRIGGER 0x80045010u
#define DSP_OSS_FREEBSD_GETIPTR 0x400c5011u
#define DSP_OSS_FREEBSD_GETOPTR 0x400c5012u
#define DSP_OSS_FREEBSD_SETDUPLEX 0x20005016u
#define DSP_OSS_FREEBSD_GETODELAY 0x40045017u
#define DSP_OSS_FREEBSD_GETPLAYVOL 0x40045018u
#define DSP_OSS_FREEBSD_SETPLAYVOL 0xc0045018u
#define DSP_OSS_FREEBSD_GETERROR 0x40685019u
#define DSP_OSS_FREEBSD_GETERROR_LONG 0x40705019u
#define DSP_OSS_FREEBSD_SYNCGROUP 0xc048501cu
#define DSP_OSS_FREEBSD_SYNCSTART 0x8004501du
#define DSP_OSS_FREEBSD_READ_RATE 0x40045002u
#define DSP_OSS_FREEBSD_READ_BITS 0x40045005u
#define DSP_OSS_FREEBSD_READ_CHANNELS 0x40045006u
#define DSP_OSS_FREEBSD_GETVERSION 0x40044d76u

#ifdef __cplusplus
}
#endif

#endif
