/* A reset that comes in the middle of a copy of results: what stands on the C stack for the service goes by longjmp. */
#include <setjmp.h>
#include <stdio.h>

#include "Adc.h"
#include "Mcal.h"
#include "Mcu.h"

static const char *board =
  "[Adc]\nAdcHwUnit = [ { AdcHwUnitId = 0 } ]\n"
  "AdcGroup = [ { AdcGroupId = 0, Unit = 0, AdcGroupDefinition = [0, 1, 2, 3], AdcGroupAccessMode = \"ADC_ACCESS_MODE_SINGLE\", AdcGroupConversionMode = \"ADC_CONV_MODE_ONESHOT\", AdcGroupTriggSrc = \"ADC_TRIGG_SRC_SW\" } ]\n"
  "[Mcu]\n";

static jmp_buf start_up;
static void restarted(const char *reason, uint32 dropped) {
  printf("%s, %u dropped\n", reason, (unsigned)dropped);
  longjmp(start_up, 1);
}

static volatile int countdown = -1;
static void watchdog(void) {
  if (countdown >= 0 && countdown-- == 0) Mcal_Reset("watchdog");
}

static const char *reason(void) {
  switch (Mcu_GetResetReason()) {
    case MCU_WATCHDOG_RESET: return "MCU_WATCHDOG_RESET";
    case MCU_POWER_ON_RESET: return "MCU_POWER_ON_RESET";
    default: return "another";
  }
}

static Adc_ValueGroupType buffer[4], values[4];
static void convert(void) {
  Adc_Init(NULL_PTR);
  (void)Adc_SetupResultBuffer(0, buffer);
  for (uint8 input = 0; input < 4; input++) Mcal_SetAnalog(input, (uint16)(100 + input));
  Adc_StartGroupConversion(0);
  Mcal_Tick(64);
  (void)Mcal_Interrupt(24);
}

int main(void) {
  if (Mcal_PowerOn(board)) {
    printf("%s\n", Mcal_Refusal);
    return 1;
  }
  Mcal_OnReset = restarted;
  Mcal_Hook = watchdog;
  if (setjmp(start_up) == 0) countdown = 60;
  Mcu_Init(NULL_PTR);
  printf("%s\n", reason());
  for (;;) {
    convert();
    Std_ReturnType read = Adc_ReadGroup(0, values);
    if (countdown >= 0) continue;
    printf("%s %u %u %u %u, buffer %u %u %u %u\n", read == E_OK ? "E_OK" : "E_NOT_OK", (unsigned)values[0], (unsigned)values[1], (unsigned)values[2], (unsigned)values[3],
      (unsigned)buffer[0], (unsigned)buffer[1], (unsigned)buffer[2], (unsigned)buffer[3]);
    break;
  }
  Mcal_PowerOff();
  return 0;
}
