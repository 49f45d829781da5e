//! A library without tests, beside a target with the name of one of `ways`.
