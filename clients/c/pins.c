/* Two pins that hold a number, and a callback that reads them: written one by one, it sees a number that nobody wrote. */
#include <stdio.h>

#include "Dio.h"
#include "Gpt.h"
#include "Mcal.h"
#include "Port.h"

static const char *board =
  "[Port]\nPortPin = [ { PortPinId = 9, PortPinDirection = \"PORT_PIN_OUT\" }, { PortPinId = 10, PortPinDirection = \"PORT_PIN_OUT\" } ]\n"
  "[Dio]\nDioChannelGroup = [ { DioChannelGroupId = 0, Port = 1, DioPortOffset = 1, DioPortMask = 6 } ]\n"
  "[Gpt]\nGptChannelConfiguration = [ { GptChannelId = 0, GptChannelMode = \"GPT_CH_MODE_CONTINUOUS\", GptNotification = \"Alarm\" } ]\n";

static const Dio_ChannelGroupType pair = { 0 };

static void Alarm(void) { printf("read %u\n", (unsigned)Dio_ReadChannelGroup(&pair)); }

static void interrupt(void) {
  Mcal_Tick(10);
  (void)Mcal_Interrupt(0);
}

int main(void) {
  if (Mcal_PowerOn(board)) {
    printf("%s\n", Mcal_Refusal);
    return 1;
  }
  Mcal_On("GptNotification", 0, Alarm);
  Port_Init(NULL_PTR);
  Gpt_Init(NULL_PTR);
  Gpt_EnableNotification(0);
  Gpt_StartTimer(0, 10);
  Dio_WriteChannelGroup(&pair, 1);
  Mcal_Hook = interrupt;
  printf("from 1 to 2, pin by pin\n");
  Dio_WriteChannel(9, STD_LOW);
  Dio_WriteChannel(10, STD_HIGH);
  printf("from 2 to 1, as a group\n");
  Dio_WriteChannelGroup(&pair, 1);
  Mcal_Hook = 0;
  interrupt();
  Mcal_PowerOff();
  return 0;
}
