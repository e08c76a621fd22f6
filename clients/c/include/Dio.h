/* Dio.h: the driver of channels, ports and channel groups. */
#ifndef DIO_H
#define DIO_H

#include "Std_Types.h"

#define DIO_E_PARAM_INVALID_CHANNEL_ID 0x0Au
#define DIO_E_PARAM_CONFIG 0x10u
#define DIO_E_PARAM_INVALID_PORT_ID 0x14u
#define DIO_E_PARAM_INVALID_GROUP 0x1Fu
#define DIO_E_PARAM_POINTER 0x20u

typedef uint8 Dio_ChannelType; /* a pin */
typedef uint8 Dio_PortType;    /* port q is the pins 8q to 8q + 7 */
typedef uint8 Dio_LevelType;   /* STD_LOW or STD_HIGH; another value counts as STD_HIGH */
typedef uint8 Dio_PortLevelType;
/* A group by its DioChannelGroupId. Its port, offset and mask are the configuration's: members of them aren't here. */
typedef struct { uint8 id; } Dio_ChannelGroupType;

Dio_LevelType Dio_ReadChannel(Dio_ChannelType ChannelId);
void Dio_WriteChannel(Dio_ChannelType ChannelId, Dio_LevelType Level);
/* Answers the level that the channel has then. */
Dio_LevelType Dio_FlipChannel(Dio_ChannelType ChannelId);
Dio_PortLevelType Dio_ReadPort(Dio_PortType PortId);
void Dio_WritePort(Dio_PortType PortId, Dio_PortLevelType Level);
/* NULL_PTR is a group that isn't there. */
Dio_PortLevelType Dio_ReadChannelGroup(const Dio_ChannelGroupType *ChannelGroupIdPtr);
void Dio_WriteChannelGroup(const Dio_ChannelGroupType *ChannelGroupIdPtr, Dio_PortLevelType Level);

#endif
