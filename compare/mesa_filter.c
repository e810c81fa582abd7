/* 16-byte BC7 blocks on standard input, their pixels as Mesa decodes them on standard output (64 bytes each); with the word
   unsigned or signed BC6H blocks, and their halves (96 bytes each). No screen is needed: the context draws to memory. Each
   part of the input becomes a texture four pixels wide, whose raster has the blocks' pixels in order. Built with:
   cc -O2 mesa_filter.c -lOSMesa */
#define GL_GLEXT_PROTOTYPES
#include <GL/osmesa.h>
#include <GL/glext.h>
#include <stdio.h>
#include <stdlib.h>
#include <string.h>

int main(int count_of_words, char **words)
{
    const char *asked = count_of_words > 1 ? words[1] : "bc7";
    const int halves = strcmp(asked, "bc7") != 0;
    const GLenum format = !halves                        ? GL_COMPRESSED_RGBA_BPTC_UNORM
                          : strcmp(asked, "signed") == 0 ? GL_COMPRESSED_RGB_BPTC_SIGNED_FLOAT
                                                         : GL_COMPRESSED_RGB_BPTC_UNSIGNED_FLOAT;
    const size_t size = halves ? 96 : 64;
    static unsigned char screen[4 * 4 * 4];
    OSMesaContext context = OSMesaCreateContextExt(OSMESA_RGBA, 0, 0, 0, NULL);
    if (!context || !OSMesaMakeCurrent(context, screen, GL_UNSIGNED_BYTE, 4, 4)) {
        fputs("no OSMesa context\n", stderr);
        return 1;
    }
    GLint tallest;
    glGetIntegerv(GL_MAX_TEXTURE_SIZE, &tallest);
    size_t most = tallest / 4, count;
    unsigned char *blocks = malloc(16 * most), *pixels = malloc(size * most);
    GLuint texture;
    glGenTextures(1, &texture);
    glBindTexture(GL_TEXTURE_2D, texture);
    glPixelStorei(GL_PACK_ALIGNMENT, 1);
    while ((count = fread(blocks, 16, most, stdin)) > 0) {
        glCompressedTexImage2D(GL_TEXTURE_2D, 0, format, 4, 4 * count, 0, 16 * count, blocks);
        glGetTexImage(GL_TEXTURE_2D, 0, halves ? GL_RGB : GL_RGBA, halves ? GL_HALF_FLOAT : GL_UNSIGNED_BYTE, pixels);
        if (glGetError() != GL_NO_ERROR) {
            fputs("OpenGL refused a texture\n", stderr);
            return 1;
        }
        fwrite(pixels, size, count, stdout);
    }
    return 0;
}
