"""A certificate for people: in sentences, as a page of HTML, and its tree as a picture in SVG.

The verdict on a certificate is that of the proved program. What is told beside it is worked out
here, from the text of the certificate and the program in exact numbers, and it is not proved.
"""
