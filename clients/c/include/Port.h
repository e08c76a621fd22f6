/* Port.h: the driver of the pins. */
#ifndef PORT_H
#define PORT_H

#include "Std_Types.h"

#define PORT_E_PARAM_PIN 0x0Au
#define PORT_E_DIRECTION_UNCHANGEABLE 0x0Bu
#define PORT_E_INIT_FAILED 0x0Cu
#define PORT_E_PARAM_INVALID_MODE 0x0Du
#define PORT_E_MODE_UNCHANGEABLE 0x0Eu
#define PORT_E_UNINIT 0x0Fu
#define PORT_E_PARAM_POINTER 0x10u

typedef struct Port_ConfigType Port_ConfigType;
typedef uint8 Port_PinType;
typedef enum { PORT_PIN_IN, PORT_PIN_OUT } Port_PinDirectionType;
typedef uint8 Port_PinModeType; /* another value is an invalid mode */
#define PORT_PIN_MODE_ADC 0u
#define PORT_PIN_MODE_DIO 1u
#define PORT_PIN_MODE_ICU 2u
#define PORT_PIN_MODE_PWM 3u
#define PORT_PIN_MODE_SPI 4u

void Port_Init(const Port_ConfigType *ConfigPtr);
void Port_SetPinDirection(Port_PinType Pin, Port_PinDirectionType Direction);
void Port_RefreshPortDirection(void);
void Port_SetPinMode(Port_PinType Pin, Port_PinModeType Mode);

#endif
