/* A callback of one's own, and its interrupt at each step of a service. */
#include <stdio.h>

#include "Gpt.h"
#include "Mcal.h"
#include "Mcu.h"

static const char *board =
  "[Gpt]\n"
  "GptChannelConfiguration = [ { GptChannelId = 0, GptChannelMode = \"GPT_CH_MODE_ONESHOT\", GptNotification = \"Alarm\" } ]\n";

static void Alarm(void) {
  printf("alarm\n");
  Gpt_StartTimer(0, 20);
}

static int steps;
static void interrupt(void) {
  steps++;
  const char *cause = Mcal_Interrupt(0);
  if (cause) printf("held before step %d as %s\n", steps, cause);
  else printf("entered before step %d\n", steps);
}

int main(void) {
  if (Mcal_PowerOn(board)) {
    printf("%s\n", Mcal_Refusal);
    return 1;
  }
  Mcal_On("GptNotification", 0, Alarm);
  Mcu_Init(NULL_PTR);
  Gpt_Init(NULL_PTR);
  Gpt_EnableNotification(0);
  Gpt_StartTimer(0, 100);
  Mcal_Tick(100);
  Mcal_Hook = interrupt;
  printf("%s\n", Mcu_GetResetReason() == MCU_POWER_ON_RESET ? "MCU_POWER_ON_RESET" : "another reason");
  Mcal_PowerOff();
  return 0;
}
