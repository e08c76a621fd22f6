/* Adc.h: the converter driver. */
#ifndef ADC_H
#define ADC_H

#include "Std_Types.h"

#define ADC_E_UNINIT 0x0Au
#define ADC_E_BUSY 0x0Bu
#define ADC_E_IDLE 0x0Cu
#define ADC_E_ALREADY_INITIALIZED 0x0Du
#define ADC_E_PARAM_POINTER 0x14u
#define ADC_E_PARAM_GROUP 0x15u
#define ADC_E_WRONG_CONV_MODE 0x16u
#define ADC_E_WRONG_TRIGG_SRC 0x17u
#define ADC_E_NOTIF_CAPABILITY 0x18u
#define ADC_E_BUFFER_UNINIT 0x19u

typedef struct Adc_ConfigType Adc_ConfigType;
typedef uint16 Adc_GroupType;
typedef uint16 Adc_ValueGroupType;
typedef uint8 Adc_StreamNumSampleType;
typedef enum { ADC_IDLE, ADC_BUSY, ADC_COMPLETED, ADC_STREAM_COMPLETED } Adc_StatusType;

void Adc_Init(const Adc_ConfigType *ConfigPtr);
void Adc_DeInit(void);
/* A group has two buffers: the first pointer that is given is one, another the other. Results are copied to the chosen one
   whenever no service and no handler is under way. */
Std_ReturnType Adc_SetupResultBuffer(Adc_GroupType Group, Adc_ValueGroupType *DataBufferPtr);
void Adc_StartGroupConversion(Adc_GroupType Group);
void Adc_StopGroupConversion(Adc_GroupType Group);
Std_ReturnType Adc_ReadGroup(Adc_GroupType Group, Adc_ValueGroupType *DataBufferPtr);
void Adc_EnableHardwareTrigger(Adc_GroupType Group);
void Adc_DisableHardwareTrigger(Adc_GroupType Group);
void Adc_EnableGroupNotification(Adc_GroupType Group);
void Adc_DisableGroupNotification(Adc_GroupType Group);
Adc_StatusType Adc_GetGroupStatus(Adc_GroupType Group);
Adc_StreamNumSampleType Adc_GetStreamLastPointer(Adc_GroupType Group, Adc_ValueGroupType **PtrToSamplePtr);

#endif
