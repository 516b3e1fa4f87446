//! The structs of a device on both sides of the boundary: by hand, as Rust lays them out, and as a
//! C compiler does with the header.

use bezhantiru::boundary::{Device, DeviceSettings, MadeDevice};

use crate::lines::{self, lines};

const BY_HAND: &str = "\
bezhantiru_device_settings: 48 bytes, aligned to 8
bezhantiru_device_settings.buckets: 4 bytes at 0
bezhantiru_device_settings.delay: 4 bytes at 4
bezhantiru_device_settings.buffer: 8 bytes at 8
bezhantiru_device_settings.rates: 16 bytes at 16
bezhantiru_device_settings.bursts: 16 bytes at 32
bezhantiru_device: 120 bytes, aligned to 8
bezhantiru_device.settings: 48 bytes at 0
bezhantiru_device.slots: 4 bytes at 48
bezhantiru_device.admitted: 8 bytes at 56
bezhantiru_device.departed: 8 bytes at 64
bezhantiru_device.levels: 32 bytes at 72
bezhantiru_device.form_peak: 8 bytes at 104
bezhantiru_device.bench_peak: 8 bytes at 112
bezhantiru_made_device: 128 bytes, aligned to 8
bezhantiru_made_device.number: 4 bytes at 0
bezhantiru_made_device.device: 120 bytes at 8
";

fn in_rust() -> String {
    [
        lines!(
            "bezhantiru_device_settings",
            DeviceSettings,
            buckets,
            delay,
            buffer,
            rates,
            bursts
        ),
        lines!(
            "bezhantiru_device",
            Device,
            settings,
            slots,
            admitted,
            departed,
            levels,
            form_peak,
            bench_peak
        ),
        lines!("bezhantiru_made_device", MadeDevice, number, device),
    ]
    .concat()
}

#[test]
fn both_sides_lay_a_device_out_as_by_hand() {
    lines::check("device_layout", &in_rust(), BY_HAND);
}
