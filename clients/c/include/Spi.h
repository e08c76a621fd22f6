/* Spi.h: the serial driver. */
#ifndef SPI_H
#define SPI_H

#include "Std_Types.h"

#define SPI_E_PARAM_CHANNEL 0x0Au
#define SPI_E_PARAM_JOB 0x0Bu
#define SPI_E_PARAM_SEQ 0x0Cu
#define SPI_E_PARAM_LENGTH 0x0Du
#define SPI_E_PARAM_UNIT 0x0Eu
#define SPI_E_PARAM_POINTER 0x10u
#define SPI_E_UNINIT 0x1Au
#define SPI_E_SEQ_PENDING 0x2Au
#define SPI_E_SEQ_IN_PROCESS 0x3Au
#define SPI_E_ALREADY_INITIALIZED 0x4Au

typedef struct Spi_ConfigType Spi_ConfigType;
typedef uint8 Spi_ChannelType;
typedef uint16 Spi_JobType;
typedef uint8 Spi_SequenceType;
typedef uint8 Spi_HWUnitType;
typedef uint16 Spi_DataBufferType;
typedef uint16 Spi_NumberOfDataType;
typedef enum { SPI_UNINIT, SPI_IDLE, SPI_BUSY } Spi_StatusType;
typedef enum { SPI_JOB_OK, SPI_JOB_PENDING, SPI_JOB_FAILED, SPI_JOB_QUEUED } Spi_JobResultType;
typedef enum { SPI_SEQ_OK, SPI_SEQ_PENDING, SPI_SEQ_FAILED, SPI_SEQ_CANCELED } Spi_SeqResultType;
typedef enum { SPI_POLLING_MODE, SPI_INTERRUPT_MODE } Spi_AsyncModeType;

void Spi_Init(const Spi_ConfigType *ConfigPtr);
Std_ReturnType Spi_DeInit(void);
Std_ReturnType Spi_WriteIB(Spi_ChannelType Channel, const Spi_DataBufferType *DataBufferPtr);
Std_ReturnType Spi_ReadIB(Spi_ChannelType Channel, Spi_DataBufferType *DataBufferPointer);
/* The source is sent as it is at Spi_AsyncTransmit or Spi_SyncTransmit; what comes in is copied to the destination whenever
   no service and no handler is under way. */
Std_ReturnType Spi_SetupEB(Spi_ChannelType Channel, const Spi_DataBufferType *SrcDataBufferPtr, Spi_DataBufferType *DesDataBufferPtr, Spi_NumberOfDataType Length);
Std_ReturnType Spi_AsyncTransmit(Spi_SequenceType Sequence);
Std_ReturnType Spi_SyncTransmit(Spi_SequenceType Sequence);
void Spi_Cancel(Spi_SequenceType Sequence);
Spi_StatusType Spi_GetStatus(void);
Spi_JobResultType Spi_GetJobResult(Spi_JobType Job);
Spi_SeqResultType Spi_GetSequenceResult(Spi_SequenceType Sequence);
Spi_StatusType Spi_GetHWUnitStatus(Spi_HWUnitType HWUnit);
Std_ReturnType Spi_SetAsyncMode(Spi_AsyncModeType Mode);
void Spi_MainFunction_Handling(void);

#endif
