@"%~dp0dist\x86_64-windows\jps.exe" %*
