/* Icu.h: the driver of the capture inputs. */
#ifndef ICU_H
#define ICU_H

#include "Std_Types.h"

#define ICU_E_PARAM_POINTER 0x0Au
#define ICU_E_PARAM_CHANNEL 0x0Bu
#define ICU_E_PARAM_ACTIVATION 0x0Cu
#define ICU_E_INIT_FAILED 0x0Du
#define ICU_E_PARAM_BUFFER_SIZE 0x0Eu
#define ICU_E_PARAM_MODE 0x0Fu
#define ICU_E_UNINIT 0x14u
#define ICU_E_NOT_STARTED 0x15u
#define ICU_E_BUSY_OPERATION 0x16u
#define ICU_E_ALREADY_INITIALIZED 0x17u
#define ICU_E_PARAM_NOTIFY_INTERVAL 0x18u

typedef struct Icu_ConfigType Icu_ConfigType;
typedef uint8 Icu_ChannelType;
typedef uint32 Icu_ValueType;
typedef uint16 Icu_IndexType;
typedef uint32 Icu_EdgeNumberType;
typedef enum { ICU_RISING_EDGE, ICU_FALLING_EDGE, ICU_BOTH_EDGES } Icu_ActivationType;
typedef enum { ICU_ACTIVE, ICU_IDLE } Icu_InputStateType;
typedef struct { Icu_ValueType ActiveTime, PeriodTime; } Icu_DutyCycleType;

void Icu_Init(const Icu_ConfigType *ConfigPtr);
void Icu_DeInit(void);
void Icu_SetActivationCondition(Icu_ChannelType Channel, Icu_ActivationType Activation);
void Icu_EnableNotification(Icu_ChannelType Channel);
void Icu_DisableNotification(Icu_ChannelType Channel);
Icu_InputStateType Icu_GetInputState(Icu_ChannelType Channel);
void Icu_EnableEdgeDetection(Icu_ChannelType Channel);
void Icu_DisableEdgeDetection(Icu_ChannelType Channel);
void Icu_ResetEdgeCount(Icu_ChannelType Channel);
void Icu_EnableEdgeCount(Icu_ChannelType Channel);
void Icu_DisableEdgeCount(Icu_ChannelType Channel);
Icu_EdgeNumberType Icu_GetEdgeNumbers(Icu_ChannelType Channel);
/* The stamps are copied to the buffer whenever no service and no handler is under way. */
void Icu_StartTimestamp(Icu_ChannelType Channel, Icu_ValueType *BufferPtr, uint16 BufferSize, uint16 NotifyInterval);
void Icu_StopTimestamp(Icu_ChannelType Channel);
Icu_IndexType Icu_GetTimestampIndex(Icu_ChannelType Channel);
void Icu_StartSignalMeasurement(Icu_ChannelType Channel);
void Icu_StopSignalMeasurement(Icu_ChannelType Channel);
Icu_ValueType Icu_GetTimeElapsed(Icu_ChannelType Channel);
void Icu_GetDutyCycleValues(Icu_ChannelType Channel, Icu_DutyCycleType *DutyCycleValues);

#endif
