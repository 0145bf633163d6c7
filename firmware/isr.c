/*
 * Which calls may an interrupt routine make? SysTick asks for the line while the main loop looks and fetches on the same module: first with nothing masked, and
 * the routine sees a module that is half written; then with the interrupt masked during each call, and it never does. A module of its own is nobody's business.
 */
#include "chance.h"
#include "panel.h"
#include "port.h"

#define SYST ((volatile uint32_t *)0xE000E010u)
enum { TURNS = 1500, TICKS = 20011 };

static struct panel panel, own;
static volatile unsigned asked, half_written, own_wrong;

void tick(void);
void tick(void)
{
    bool yes = false;
    asked++;
    half_written += panel_interrupt(&panel, &yes) != PANEL_DONE;
    own_wrong += panel_interrupt(&own, &yes) != PANEL_DONE || !yes;
}

/* Interrupts off and on, if they are to be masked. */
static void begin_call(bool masked)
{
    if (masked)
        __asm__ volatile("cpsid i" : : : "memory");
}

static void end_call(bool masked)
{
    if (masked)
        __asm__ volatile("cpsie i" : : : "memory");
}

/* Looks and fetches; says what the routine saw. Were all calls done? */
static bool turns(bool masked, const char *how)
{
    uint16_t samples[PANEL_ROWS];
    uint8_t codes[PANEL_PLACES + 1];
    unsigned i, k, declined = 0;
    asked = half_written = own_wrong = 0;
    for (i = 0; i < TURNS; i++) {
        for (k = 0; k < PANEL_ROWS; k++)
            samples[k] = (uint16_t)(chance() & chance() & 0x1FFF);
        begin_call(masked);
        declined += panel_look(&panel, samples, PANEL_ROWS) != PANEL_DONE;
        end_call(masked);
        k = 1 + below(sizeof codes);
        begin_call(masked);
        declined += panel_read(&panel, PANEL_EVTCODE, codes, k) != PANEL_DONE;
        end_call(masked);
    }
    printf("%s: the interrupt routine asked %u times, and saw the module half written %u times, its own module wrong %u times\n", how, asked, half_written, own_wrong);
    return declined == 0 && asked > TURNS / 2 && own_wrong == 0;
}

int main(int words, char **word)
{
    uint8_t set[2] = {1, 0x8C};
    (void)words, (void)word;
    panel_reset(&panel);
    panel_reset(&own);
    if (panel_write(&panel, PANEL_KBDBOUNCE, set, sizeof set) != PANEL_DONE)
        return 1;
    SYST[1] = TICKS;
    SYST[2] = 0;
    SYST[0] = 7;
    if (!turns(false, "nothing masked") || half_written == 0)
        return 1;
    return turns(true, "masked during a call") && half_written == 0 ? 0 : 1;
}
