/* A snapshot's settings as lines of a name and a decimal number, read and written through libspectrum. */
#include <libspectrum.h>
#include <stdio.h>
#include <string.h>

#define PAGE 16384

typedef unsigned value;
typedef struct { const char *name; value (*get)(libspectrum_snap *); void (*set)(libspectrum_snap *, value); } setting;

/* The getter and the setter of a field that libspectrum names otherwise. */
#define FIELD(name, field) \
    static value get_##name(libspectrum_snap *s) { return (value)libspectrum_snap_##field(s); } \
    static void set_##name(libspectrum_snap *s, value v) { libspectrum_snap_set_##field(s, v); }

FIELD(a, a) FIELD(f, f) FIELD(bc, bc) FIELD(de, de) FIELD(hl, hl)
FIELD(alt_a, a_) FIELD(alt_f, f_) FIELD(alt_bc, bc_) FIELD(alt_de, de_) FIELD(alt_hl, hl_)
FIELD(ix, ix) FIELD(iy, iy) FIELD(sp, sp) FIELD(pc, pc) FIELD(i, i) FIELD(r, r)
FIELD(iff1, iff1) FIELD(iff2, iff2) FIELD(interrupt_mode, im) FIELD(border, out_ula)
FIELD(t_states, tstates) FIELD(interface1, interface1_active) FIELD(interface1_rom, interface1_paged)
FIELD(mgt, plusd_active) FIELD(mgt_rom, plusd_paged)
FIELD(melodik, melodik_active) FIELD(fuller, fuller_box_active)

/* A field whose number is shown in another way. */
#define SHOWN(name, field, shown) \
    static value get_##name(libspectrum_snap *s) { return (value)(shown); } \
    static void set_##name(libspectrum_snap *s, value v) { libspectrum_snap_set_##field(s, v); }

static int is_128(libspectrum_snap *s) { return libspectrum_snap_machine(s) == LIBSPECTRUM_MACHINE_128; }
static int has_chip(libspectrum_snap *s)
{
    return is_128(s) || libspectrum_snap_melodik_active(s) || libspectrum_snap_fuller_box_active(s);
}
static value get_model(libspectrum_snap *s) { return is_128(s) ? 128 : 48; }
static void set_model(libspectrum_snap *s, value v) { (void)s; (void)v; /* the kind is set before */ }

SHOWN(issue2, issue2, libspectrum_snap_issue2(s) != 0)
/* On a 48K, and without the sound chip, libspectrum shows its own defaults. */
SHOWN(paging, out_128_memoryport, is_128(s) ? libspectrum_snap_out_128_memoryport(s) : 0)
SHOWN(sound_select, out_ay_registerport, has_chip(s) ? libspectrum_snap_out_ay_registerport(s) : 0)

/* By the number in the file. */
static const libspectrum_joystick joysticks[4] = {
    LIBSPECTRUM_JOYSTICK_CURSOR, LIBSPECTRUM_JOYSTICK_KEMPSTON,
    LIBSPECTRUM_JOYSTICK_SINCLAIR_2, LIBSPECTRUM_JOYSTICK_SINCLAIR_1,
};

static value get_joystick(libspectrum_snap *s)
{
    for (value number = 0; number < 4; number++)
        if (libspectrum_snap_joystick_active_count(s) && libspectrum_snap_joystick_list(s, 0) == joysticks[number])
            return number;
    return 2; /* user defined in v3: libspectrum makes it no joystick */
}

static void set_joystick(libspectrum_snap *s, value v)
{
    libspectrum_snap_set_joystick_active_count(s, 1);
    libspectrum_snap_set_joystick_list(s, 0, joysticks[v]);
    libspectrum_snap_set_joystick_inputs(s, 0, LIBSPECTRUM_JOYSTICK_INPUT_JOYSTICK_1);
}

#define ROW(name) { #name, get_##name, set_##name }
static const setting settings[] = {
    ROW(model), ROW(a), ROW(f), ROW(bc), ROW(de), ROW(hl),
    ROW(alt_a), ROW(alt_f), ROW(alt_bc), ROW(alt_de), ROW(alt_hl),
    ROW(ix), ROW(iy), ROW(sp), ROW(pc), ROW(i), ROW(r), ROW(iff1), ROW(iff2), ROW(interrupt_mode),
    ROW(border), ROW(issue2), ROW(joystick), ROW(t_states),
    ROW(interface1), ROW(mgt), ROW(mgt_rom), ROW(melodik), ROW(fuller), ROW(paging), ROW(sound_select),
    ROW(interface1_rom),
};
#define SETTINGS (sizeof settings / sizeof *settings)
/* libspectrum writes the last one, but never reads it. */
#define READ_BACK (SETTINGS - 1)
