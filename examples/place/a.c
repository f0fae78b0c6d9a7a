int x;
long y;

void main() {
}
