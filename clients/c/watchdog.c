/* A watchdog that a task feeds in time, and whose time ends in a callback above the very call that was to feed it. */
#include <setjmp.h>
#include <stdio.h>

#include "Gpt.h"
#include "Mcal.h"
#include "Mcu.h"
#include "Wdg.h"

static const char *board =
  "[Gpt]\nGptChannelConfiguration = [ { GptChannelId = 0, GptChannelMode = \"GPT_CH_MODE_ONESHOT\", GptNotification = \"Alarm\" } ]\n"
  "[Wdg]\nWdgDefaultMode = \"WDGIF_FAST_MODE\"\nInitialTicks = 100\n";

static jmp_buf start_up;
static void restarted(const char *reason, uint32 dropped) {
  printf("%s, %u dropped\n", reason, (unsigned)dropped);
  longjmp(start_up, 1);
}

static void Alarm(void) {
  printf("a callback that takes too long\n");
  Mcal_Tick(200);
}
static void interrupt(void) { (void)Mcal_Serve(); }

static void run(void) {
  Wdg_Init(NULL_PTR);
  Gpt_Init(NULL_PTR);
  for (int times = 0; times < 5; times++) {
    Mcal_Tick(90);
    Wdg_SetTriggerCondition(100);
  }
  printf("fed 5 times\n");
  Gpt_EnableNotification(0);
  Gpt_StartTimer(0, 50);
  Mcal_Tick(50);
  Mcal_Hook = interrupt;
  Wdg_SetTriggerCondition(100);
}

int main(void) {
  if (Mcal_PowerOn(board)) {
    printf("%s\n", Mcal_Refusal);
    return 1;
  }
  Mcal_On("GptNotification", 0, Alarm);
  Mcal_OnReset = restarted;
  if (setjmp(start_up) == 0) run();
  Mcal_Hook = 0;
  Mcu_Init(NULL_PTR);
  printf("%s\n", Mcu_GetResetReason() == MCU_WATCHDOG_RESET ? "MCU_WATCHDOG_RESET" : "another reason");
  Mcal_PowerOff();
  return 0;
}
