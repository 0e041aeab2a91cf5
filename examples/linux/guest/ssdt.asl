// Linux looks for VMBus in ACPI: a device VMBUS below a VMOD, whose resources are the memory
// that VMBus may give out.
DefinitionBlock ("ssdt.aml", "SSDT", 2, "HVPM", "HVPMVMBS", 1)
{
    Scope (\_SB)
    {
        Device (VMOD)
        {
            Name (_HID, EisaId ("PNP0A06"))
            Name (_UID, Zero)
            Name (_CRS, ResourceTemplate ()
            {
                DWordMemory (ResourceProducer, PosDecode, MinFixed, MaxFixed, NonCacheable, ReadWrite,
                    0x00000000, 0xF8000000, 0xFBFFFFFF, 0x00000000, 0x04000000)
            })
            Device (VMBS)
            {
                Name (_HID, "VMBUS")
                Name (_UID, Zero)
                Name (_STA, 0x0F)
                Name (_CRS, ResourceTemplate () { IRQ (Edge, ActiveHigh, Exclusive) {5} })
            }
        }
    }
}
