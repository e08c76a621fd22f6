/* A converter that streams two inputs into a ring of four rounds, and a callback that finds the newest round in it. */
#include <stdio.h>

#include "Adc.h"
#include "Mcal.h"

static const char *board =
  "[Adc]\nAdcHwUnit = [ { AdcHwUnitId = 0 } ]\n"
  "[[Adc.AdcGroup]]\nAdcGroupId = 0\nUnit = 0\nAdcGroupDefinition = [0, 1]\n"
  "AdcGroupAccessMode = \"ADC_ACCESS_MODE_STREAMING\"\nAdcGroupConversionMode = \"ADC_CONV_MODE_CONTINUOUS\"\n"
  "AdcGroupTriggSrc = \"ADC_TRIGG_SRC_SW\"\nAdcStreamingNumSamples = 4\n"
  "AdcStreamingBufferMode = \"ADC_STREAM_BUFFER_CIRCULAR\"\nAdcNotification = \"Converted\"\n";

static Adc_ValueGroupType ring[8];

static Adc_ValueGroupType *newest;
static Adc_StreamNumSampleType rounds;
static void Converted(void) { rounds = Adc_GetStreamLastPointer(0, &newest); }

int main(void) {
  if (Mcal_PowerOn(board)) {
    printf("%s\n", Mcal_Refusal);
    return 1;
  }
  Mcal_On("AdcNotification", 0, Converted);
  Adc_Init(NULL_PTR);
  (void)Adc_SetupResultBuffer(0, ring);
  Adc_EnableGroupNotification(0);
  Adc_StartGroupConversion(0);
  for (uint16 number = 0; number < 6; number++) {
    Mcal_SetAnalog(0, (uint16)(10 + number));
    Mcal_SetAnalog(1, (uint16)(20 + number));
    while (!Mcal_Pending()) Mcal_Tick(1);
    (void)Mcal_Serve();
    printf("rounds %u newest at %d ring", (unsigned)rounds, (int)(newest - ring));
    for (int place = 0; place < 8; place++) printf(" %u", (unsigned)ring[place]);
    printf("\n");
  }
  Adc_StopGroupConversion(0);
  printf("%s\n", Adc_GetGroupStatus(0) == ADC_IDLE ? "ADC_IDLE" : "another status");
  Mcal_PowerOff();
  return 0;
}
