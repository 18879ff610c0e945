"""`amctl ui`: a page on 127.0.0.1 that asks a device. The keys stay here; the page never sees one."""
