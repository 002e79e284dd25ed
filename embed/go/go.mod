module example.invalid/otp/supervision

go 1.19
