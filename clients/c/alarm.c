/* An alarm that starts itself again in its callback, and whose interrupt comes at each step of the service that stops it. */
#include <stdio.h>

#include "Gpt.h"
#include "Mcal.h"

static const char *board =
  "[Gpt]\nGptChannelConfiguration = [\n"
  "  { GptChannelId = 0, GptChannelMode = \"GPT_CH_MODE_ONESHOT\", GptNotification = \"Alarm\", Level = 1 },\n"
  "  { GptChannelId = 1, GptChannelMode = \"GPT_CH_MODE_CONTINUOUS\" } ]\n";

static int alarms;
static const char *restart;
static void Alarm(void) {
  alarms++;
  Gpt_StartTimer(0, 20);
}
static void refused(const char *service, const char *cause) {
  (void)service;
  restart = cause[0] == 'r' ? "reentry" : "held";
}

static int steps, wanted, entered;
static void interrupt_at(void) {
  if (steps >= wanted && entered < 0 && !Mcal_Interrupt(0)) entered = steps;
  steps++;
}

int main(void) {
  Mcal_On("GptNotification", 0, Alarm);
  Mcal_OnHeld = refused;
  if (Mcal_PowerOn(board)) {
    printf("%s\n", Mcal_Refusal);
    return 1;
  }
  for (wanted = 0; ; wanted++) {
    Mcal_PowerCycle();
    alarms = steps = 0;
    entered = -1;
    restart = "ok";
    Gpt_Init(NULL_PTR);
    Gpt_EnableNotification(0);
    Gpt_StartTimer(1, 5000);
    Gpt_StartTimer(0, 10);
    Mcal_Tick(10);
    Mcal_Hook = interrupt_at;
    Gpt_StopTimer(0);
    Mcal_Hook = 0;
    (void)Mcal_Interrupt(0);
    if (wanted >= steps) break;
    printf("asked at step %d: entered ", wanted);
    if (entered < 0) printf("after the call");
    else printf("at step %d", entered);
    printf(", alarms %d, restart %s\n", alarms, restart);
  }
  Mcal_PowerOff();
  return 0;
}
