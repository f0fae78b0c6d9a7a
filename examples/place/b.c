char z;
__shared(*) long s;
